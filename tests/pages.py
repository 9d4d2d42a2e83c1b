"""Opens a page of svemu-lanes in a browser, unfolds what stands folded, presses the right arrow three times, and compares each
time what the page then holds of the step with what `svemu dbg` and `svemu dis` show.

python3 pages.py --rows PAGE looks at a page of two lengths.
python3 pages.py --long PAGE looks at a page of 5,000 steps: its bytes, how it opens, and whether the current row is seen.
python3 pages.py --packed PAGE looks so at a page whose data are compressed.
python3 pages.py --paper PAGE prints a page, which may have a sheet for each 20 steps.
python3 pages.py --data PAGE writes the data of a page as one line of JSON for each part: what is said of its end, and of each
side the instructions and the steps.
python3 pages.py PAGE PROGRAM LENGTH TEXT TEXT TEXT: the texts are those of the three steps. The program is that which SVEMU names.
"""

import base64
import json
import os
import re
import subprocess
import sys
import tempfile
import time
import zlib

sys.dont_write_bytecode = True
from browser import Browser  # noqa: E402

HELD = """(() => {
  const row = document.querySelector("[aria-current=step]"), text = of => row.querySelector(of).textContent;
  const cells = lanes => [...lanes.querySelectorAll("b")].flatMap(lane => lane.dataset.count ? Array(Number(lane.dataset.count)).fill(lane.dataset.bit) : [lane.textContent]);
  const lanes = [...row.querySelectorAll(".register:not(.memory)")].map(register => [register.querySelector(".name").textContent.split(" ")[0],
    cells(register.querySelector(".lanes"))]);
  const memory = [...row.querySelectorAll(".memory")].map(block => [block.dataset.does, block.dataset.at, Number(block.dataset.size), cells(block)]);
  const general = [...row.querySelectorAll(".value")].map(value => value.textContent.trim());
  return {step: Number(text(".n")), pc: text(".pc").padStart(16, "0"), text: text(".text"), flags: text(".flags"), lanes, memory, general, title: document.title,
    current: document.querySelectorAll("[aria-current]").length, wide: document.documentElement.scrollWidth - innerWidth,
    folded: row.querySelectorAll(".chip").length};
})()"""


def data_of(page):
    """The data that a page holds."""
    with open(page, encoding="utf-8") as file:
        data = json.loads(re.search(r'id="data">(.*?)</script>', file.read())[1])
    return json.loads(zlib.decompress(base64.b64decode(data))) if isinstance(data, str) else data


def svemu(*words):
    return subprocess.run([os.environ["SVEMU"], *words], stdin=subprocess.DEVNULL, capture_output=True, check=True).stdout.decode().splitlines()


def wanted(program, vl, step, names):
    """What `dbg` shows behind this step of these registers: lanes as the page has them, and the lines of `regs`."""
    with tempfile.NamedTemporaryFile("w") as script:
        asked = [f"lanes {name[1:].replace('.', ' ')}" if name[0] == "z" else f"preg {name[1:-2]}" if name[0] == "p" else "ffr" for name in names]
        script.write("\n".join([f"step {step - 1}", "regs", "step 1", "regs", *asked]) + "\n")
        script.flush()
        lines = svemu("dbg", program, script.name, "--vl", vl, "--budget", str(step))
    lanes = []
    for name, line in zip(names, lines[-len(names):] if names else []):
        values = line.split()[1:]
        if name[0] != "z":
            bits = "".join(f"{int(digit, 16):04b}" for digit in values[0])[::-1]
            values = list(bits[::{"b": 1, "h": 2, "s": 4, "d": 8}[name[-1]]])
        lanes.append([name, values])
    # `regs` has 36 lines, `step` one.
    general = lines[:len(lines) - len(names)]
    pc = next(line.split()[1] for line in general[-73:] if line.startswith("pc "))
    return lanes, general[-36:], pc


def check(held, program, vl, text):
    names = [name for name, _ in held["lanes"]]
    lanes, general, pc = wanted(program, vl, held["step"], names)
    nzcv = next(line.split()[1] for line in general if line.startswith("nzcv "))
    flags = "".join(flag.upper() if bit == "1" else flag for flag, bit in zip("nzcv", nzcv))
    assert names, "no lanes are drawn"
    assert held["lanes"] == lanes, f"step {held['step']}: the page has {held['lanes']}, dbg {lanes}"
    known = {(line.split()[0], int(line.split()[1], 16)) for line in general if line[:1] in "xs"}
    for line in held["general"]:
        assert (line.split()[0], int(line.split()[1], 16)) in known, f"step {held['step']}: the page has {line}"
    check_memory(held, program, vl)
    assert held["flags"][:4] == flags, f"step {held['step']}: the page has the flags {held['flags']}, dbg {flags}"
    assert held["pc"] == pc, f"step {held['step']}: the page has {held['pc']}, dbg {pc}"
    assert held["text"] == text, f"the page has the step {held['text']}, not {text}"
    assert any(line[:16] == pc and line[26:] == text for line in svemu("dis", program)), f"dis doesn't show {text} at {pc}"
    assert held["current"] == 1 and held["wide"] <= 0, f"{held['current']} steps are current, and the page is {held['wide']} too wide"
    base = os.path.basename(program)
    assert held["title"] == f"{base} at {vl} bits, step {held['step']}: {text}", f"the title is {held['title']}"


def check_memory(held, program, vl):
    """Whether what the page says of a load or a store by lanes is what memory has behind the step."""
    for does, at, size, values in held["memory"]:
        with tempfile.NamedTemporaryFile("w") as script:
            script.write(f"step {held['step']}\nmem 0x{at} {size * len(values)}\n")
            script.flush()
            lines = svemu("dbg", program, script.name, "--vl", vl, "--budget", str(held["step"]))
        there = bytes.fromhex("".join(line[20:] for line in lines if re.match("0x[0-9a-f]{16}:", line)).replace(" ", ""))
        here = b"".join(int(value, 16).to_bytes(size, "little") for value in values)
        assert here == there, f"step {held['step']}: the page has {does} {here.hex()} at {at}, memory {there.hex()}"


def stays_in_view(browser, keys):
    """Whether the current row is seen behind each key, and wherever the slider is put."""
    for key in keys:
        browser.press(key)
        hidden = browser.hidden("[aria-current=step]", "header")
        assert not hidden, f"behind {key} {hidden}"
    for part in (0.5, 1, 0.25, 0):
        browser.value(f"""(() => {{
          const slider = document.querySelector("input[type=range]");
          slider.value = Math.round(slider.max * {part});
          slider.dispatchEvent(new Event("input"));
        }})()""")
        hidden = browser.hidden("[aria-current=step]", "header")
        assert not hidden, f"with the slider at {part} {hidden}"


WALK = ("PageDown", "PageDown", "ArrowDown", "ArrowDown", "PageUp", "ArrowUp", "End", "ArrowUp", "PageUp", "Home", "End", "Home")


def main(page, program, vl, *texts):
    browser = Browser()
    try:
        drawn(browser, page)
        folded = browser.value(HELD)["folded"]
        # Where registers are chosen nothing is folded at first.
        if not data_of(page)["open"]:
            browser.press("u")
        held = browser.value(HELD)
        assert held["folded"] == 0, "what is folded can't be unfolded"
        first = held["step"]
        for place, text in enumerate(texts):
            browser.press("ArrowRight")
            held = browser.value(HELD)
            assert held["step"] == first + place + 1, f"the key leads to step {held['step']}"
            check(held, program, vl, text)
        # Lane 0 stands at the right, and behind the switch at the left; the numbers are the same.
        lanes = "[...document.querySelectorAll('[aria-current] .lanes:not(.single) b')].slice(0, 2).map(lane => lane.getBoundingClientRect().left)"
        right = browser.value(lanes)
        browser.press("l")
        left = browser.value(lanes)
        assert right[0] > right[1] and left[0] < left[1], f"lanes 0 and 1 stand at {right}, and turned at {left}"
        assert browser.value(HELD)["lanes"] == held["lanes"], "turning changes the lanes"
        for _ in texts:
            browser.press("ArrowLeft")
        assert browser.value(HELD)["step"] == first, "the keys don't lead back"
        browser.press("End")
        assert browser.value("[...document.querySelectorAll('.row')].pop().matches('[aria-current]')"), "End doesn't lead to the last step"
        browser.press("Home")
        stays_in_view(browser, WALK)
        browser.press("u")
        browser.press("Home")
        assert data_of(page)["open"] or browser.value(HELD)["folded"] == folded, "what was unfolded can't be folded"
        stays_in_view(browser, WALK)
        assert not browser.errors, browser.errors
    finally:
        browser.close()


def drawn(browser, page):
    """Opens a page, and waits until it is drawn; gives the seconds that it says it took."""
    browser.open(page)
    until = time.monotonic() + 60
    while not (took := browser.value("document.body.dataset.drawn")):
        assert not browser.errors, browser.errors
        assert time.monotonic() < until, "the page isn't drawn within a minute"
    return int(took) / 1000


def packed(page):
    """A page whose data are compressed."""
    with open(page, encoding="utf-8") as file:
        assert 'id="data">"' in file.read(), "its data aren't compressed"
    long(page, len(data_of(page)["sides"][0]["rows"]))


def long(page, count=5000):
    """A page of so many steps."""
    size = os.path.getsize(page)
    assert size <= 3000000, f"the page has {size} bytes"
    for width, dark in ((1280, False), (800, True)):
        browser = Browser(width, 900, dark)
        try:
            # On a machine that does much else it may take ten times as long as on a quiet one.
            took = drawn(browser, page)
            assert took < 10, f"the page opens in {took} seconds"
            assert browser.value("document.querySelectorAll('.row').length") == count, f"there aren't {count} rows"
            stays_in_view(browser, WALK)
            wide = browser.value("document.documentElement.scrollWidth - innerWidth")
            assert wide <= 0, f"the page is {wide} too wide for {width}"
            assert not browser.errors, browser.errors
        finally:
            browser.close()


def paper(page):
    """Prints a page: at most one sheet for each 20 steps, and one more for the rest of them."""
    browser = Browser()
    try:
        drawn(browser, page)
        steps = browser.value("document.querySelectorAll('.row').length")
        printed = base64.b64decode(browser.call("Page.printToPDF", preferCSSPageSize=True)["data"])
        sheets = len(re.findall(rb"/Type\s*/Page\b", printed))
        assert 0 < sheets <= -(-steps // 20), f"{steps} steps are printed on {sheets} sheets"
        assert not browser.errors, browser.errors
    finally:
        browser.close()


def rows(page):
    """A page of two lengths: its current row is seen behind each key, and nothing is wider than the window."""
    for width, dark in ((1280, False), (800, True)):
        browser = Browser(width, 900, dark)
        try:
            drawn(browser, page)
            stays_in_view(browser, WALK)
            assert browser.value("document.querySelectorAll('#row0 .side').length") == 2, "a row has no two sides"
            wide = browser.value("document.documentElement.scrollWidth - innerWidth")
            assert wide <= 0, f"the page is {wide} too wide for {width}"
            assert not browser.errors, browser.errors
        finally:
            browser.close()


if __name__ == "__main__":
    try:
        other = {"--rows": rows, "--long": long, "--packed": packed, "--paper": paper}.get(sys.argv[1])
        if other:
            other(sys.argv[2])
        elif sys.argv[1] == "--data":
            held_data = data_of(sys.argv[2])
            for part in (held_data["more"], *(line for side in held_data["sides"] for line in (*side["code"], *side["rows"]))):
                print(json.dumps(part, separators=(",", ":")))
        else:
            main(*sys.argv[1:])
    except (AssertionError, OSError) as error:
        sys.exit(str(error))
