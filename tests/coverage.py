"""Opens a page of svemu-cover in a browser, and compares what it holds with what `svemu-tool count` says; then goes to the first part that didn't run
everywhere by the key n, and shows those instructions alone.

python3 coverage.py PAGE PROGRAM FUNCTION: the program is that which SVEMU_TOOL names.
"""

import os
import subprocess
import sys

sys.dont_write_bytecode = True
from browser import Browser  # noqa: E402

HELD = """(() => ({
  rows: [...document.querySelectorAll(".row:not(.source):not(.hidden)")].map(row => [row.querySelector(".at").textContent,
    row.querySelector(".strip").getAttribute("aria-label"), row.querySelector(".count").textContent, row.className.split(" ")[1], row.matches(".now")]),
  parts: document.querySelectorAll("#parts li").length, where: document.querySelector("h1").textContent,
  seen: [...document.querySelectorAll(".row.now")].slice(0, 1).map(row => {
    const box = row.getBoundingClientRect(), head = document.querySelector("header").getBoundingClientRect();
    return box.top >= head.bottom - 1 && box.bottom <= innerHeight + 1;
  }),
  wide: document.documentElement.scrollWidth - innerWidth
}))()"""


def counted(program):
    words = ["count", program, "--vl", "all", "--budget", "10000000000"]
    output = subprocess.run([os.environ["SVEMU_TOOL"], *words], stdin=subprocess.DEVNULL, capture_output=True, check=True).stdout
    lines = [line.split() for line in output.decode().splitlines() if not line.startswith("vl ")]
    return {line[0]: list(map(int, line[1:])) for line in lines}


def label(counts):
    if len(set(counts)) == 1:
        return f"{counts[0]} at each length"
    return ", ".join(f"{128 * k + 128}: {count}" for k, count in enumerate(counts))


def check(held, counts, every):
    for address, told, span, look, _ in held["rows"]:
        mine = counts.get(address, [0] * 16)
        wanted = "all" if all(mine) else "some" if any(mine) else "none"
        assert told == label(mine) and look == wanted, f"{address} has {told}, {look}, and count says {mine}"
        assert span == (str(mine[0]) if len(set(mine)) == 1 else f"{min(mine)} to {max(mine)}"), f"{address} has {span}"
    assert held["rows"] and held["wide"] <= 0, f"{len(held['rows'])} rows, {held['wide']} pixels too wide"
    if every:
        missing = set(counts) - {row[0] for row in held["rows"]}
        assert not missing, f"the page lacks {sorted(missing)[:4]}"


def main(page, program, function):
    counts = counted(program)
    for width, dark in ((1280, False), (800, True)):
        browser = Browser(width=width, dark=dark)
        try:
            browser.open(page)
            held = browser.value(HELD)
            check(held, counts, function == "all")
            browser.press("n")
            there = browser.value(HELD)
            assert held["parts"] and any(row[4] for row in there["rows"]), "n goes nowhere"
            assert "only" in there["where"] or "no length" in there["where"], f"the head says {there['where']}"
            assert there["seen"] == [True], "the part isn't in view"
            browser.value("(() => { document.getElementById('filter').value = 'some'; document.getElementById('filter').onchange(); })()")
            some = browser.value(HELD)
            wanted = [row[0] for row in held["rows"] if row[3] != "all"]
            assert [row[0] for row in some["rows"]] == wanted, f"the filter shows {len(some['rows'])} rows, and {len(wanted)} didn't run everywhere"
            assert not browser.errors, browser.errors
        finally:
            browser.close()


main(*sys.argv[1:])
