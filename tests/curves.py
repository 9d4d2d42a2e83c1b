"""Opens a page of svemu-curve in a browser, presses the right arrow three times, and compares what the page then holds with what `svemu sweep` says, and
the bytes that differ with those that `svemu run` writes.

python3 curves.py PAGE PROGRAM: the program is that which SVEMU names.
"""

import os
import subprocess
import sys

sys.dont_write_bytecode = True
from browser import Browser  # noqa: E402

BUDGET = ["--budget", "10000000000"]

HELD = """(() => {
  const texts = (of, what) => [...of.querySelectorAll(what)].map(cell => cell.textContent);
  const middle = mark => {
    const box = mark.getBBox();
    return [Number(mark.dataset.vl), box.x + box.width / 2, box.y + box.height / 2, mark.getAttribute("class")];
  };
  return {rows: [...document.querySelectorAll("tbody tr")].map(row => texts(row, "td")), current: texts(document, "[aria-current=true] td:first-child"),
    points: [...document.querySelectorAll("#chart [data-vl]")].map(middle), otherwise: document.querySelectorAll("#chart .ends").length,
    bars: ["out", "err"].map(name => [...document.querySelectorAll(`#chart .${name}`)].map(bar => bar.getBBox().height)),
    scale: [...document.querySelectorAll("#chart text[text-anchor=end]:not(.name):not(.now)")].map(text =>
      [Number(text.textContent), Number(text.getAttribute("y")) - 4]),
    ideal: document.querySelector("#chart .ideal").getPointAtLength(1e9).y, title: document.title, where: document.querySelector("h1").textContent,
    partings: [...document.querySelectorAll(".parting")].map(part => [
      part.dataset.vl.split(" ").map(Number), part.matches(".now"), part.querySelector("p").textContent,
      [...part.querySelectorAll(".row")].map(row => [...row.querySelectorAll(".side")].map(side => [Number(side.dataset.at),
        [...side.querySelectorAll(".hex b")].map(byte => [byte.textContent.trim(), byte.matches(".new")])]))]),
    wide: document.documentElement.scrollWidth - innerWidth};
})()"""


def svemu(*words):
    return subprocess.run([os.environ["SVEMU"], *words], stdin=subprocess.DEVNULL, capture_output=True, check=False).stdout


def swept(program):
    """The lines of a sweep: length, ending, steps, bytes of output and of errors, and whether the output is the same."""
    lines = []
    for line in svemu("sweep", program, *BUDGET).decode().splitlines():
        words = line.split()
        after, out = words.index("after"), words.index("out")
        lines.append((int(words[1]), " ".join(words[2:after]), int(words[after + 1]), int(words[out + 1]), int(words[out + 3]), " ".join(words[out + 4:])))
    return lines


def check_table(held, lines):
    first = lines[0][2]
    wanted = [[str(vl), str(steps), str(out), str(err), part, how] for vl, how, steps, out, err, part in lines]
    rows = [row[:2] + row[5:] for row in held["rows"]]
    assert len(lines) == 16 and rows == wanted, f"the page has {rows}, sweep {wanted}"
    for row, (vl, _, steps, *_) in zip(held["rows"], lines):
        ideal = first * 128 / vl
        near = [abs(float(row[2]) - ideal) <= 0.051, abs(float(row[3].rstrip("%")) - 100 * ideal / steps) <= 0.51, abs(float(row[4]) - first / steps) <= 0.0051]
        assert all(near), f"at {vl} bits the page has {row}"


def check_chart(held, lines):
    """On the linear scale the height of a point is as its steps are, the ideal ends at a sixteenth, and a bar is as its bytes are."""
    points = held["points"]
    looks = [(line[0], "parts" if line[5] != "same" else "point") for line in lines]
    assert [(vl, look) for vl, _, _, look in points] == looks, f"the points are {points}"
    assert held["otherwise"] == sum(line[1] != lines[0][1] for line in lines), "the crosses aren't those of the endings"
    across = [x for _, x, _, _ in points]
    assert all(abs(right - left - (across[1] - across[0])) < 0.3 for left, right in zip(across, across[1:])), f"the lengths stand at {across}"
    # The numbers beside the scale: two are those of the bytes, the others those of the steps, from 0 on.
    (_, bottom), (most, top) = held["scale"][2], held["scale"][-1]
    for (vl, _, y, _), line in zip(points, lines):
        assert abs(y - bottom - (top - bottom) * line[2] / most) < 0.3, f"at {vl} bits the point stands at {y}"
    assert abs(held["ideal"] - bottom - (top - bottom) * lines[0][2] / 16 / most) < 0.3, f"the ideal ends at {held['ideal']}"
    for bars, place in zip(held["bars"], (3, 4)):
        counts = [line[place] for line in lines if line[place] > 0]
        bars = bars[len(bars) - len(counts):]
        assert len(bars) == len(counts), f"there are {len(bars)} bars"
        assert all(abs(bar * counts[0] - bars[0] * count) < 0.2 * max(counts) for bar, count in zip(bars, counts)), f"the bars are {bars}"


def check_partings(held, program, lines, vl):
    apart = [line[0] for line in lines if line[5] != "same"]
    assert sorted(length for lengths, *_ in held["partings"] for length in lengths) == apart, "other lengths part"
    first = svemu("run", program, "--vl", "128", *BUDGET)
    for lengths, now, says, rows in held["partings"]:
        assert now == (vl in lengths), f"at {vl} bits {lengths} are marked: {now}"
        outputs = [svemu("run", program, "--vl", str(length), *BUDGET) for length in lengths]
        assert all(output == outputs[0] for output in outputs), f"the outputs at {lengths} bits aren't the same"
        longest = max(len(first), len(outputs[0]))
        differ = [k for k in range(longest) if first[k:k + 1] != outputs[0][k:k + 1]]
        assert says.startswith(f"{len(differ)} of {longest} bytes differ"), f"at {lengths} bits the page says: {says}"
        marked = []
        for row in [row for row in rows if row]:
            for side, output in zip(row, (first, outputs[0])):
                for k, (text, new) in enumerate(side[1], side[0]):
                    here = output[k:k + 1].hex() or ("--" if k < longest else "")
                    assert text == here and new == (k in differ), f"at {lengths} bits byte {k} is {text}, marked {new}"
            marked += [k for k, (_, new) in enumerate(row[0][1], row[0][0]) if new]
        assert marked == differ, f"at {lengths} bits the bytes {marked} are marked, and {differ} differ"


def check(held, program, lines, place):
    vl, how, steps, out, err, part = lines[place]
    base = os.path.basename(program)
    assert held["current"] == [str(vl)], f"the page stands at {held['current']}, not at {vl}"
    assert held["title"] == f"{base} from 128 to 2048 bits, at {vl} bits: {steps} steps, {part}", f"the title is {held['title']}"
    assert held["where"] == f"{base} at {vl} bits: {how} after {steps} steps, out {out}, err {err}, {part}", f"the heading is {held['where']}"
    assert held["wide"] <= 0, f"the page is {held['wide']} too wide"
    check_table(held, lines)
    check_partings(held, program, lines, vl)


def main(page, program):
    lines = swept(program)
    browser = Browser()
    try:
        browser.open(page)
        # It opens at the first length at which the program does otherwise than at 128 bits.
        begin = next((k for k, line in enumerate(lines) if line[5] != "same" or line[1] != lines[0][1]), 0)
        check(browser.value(HELD), program, lines, begin)
        check_chart(browser.value(HELD), lines)
        browser.press("Home")
        for place in range(1, 4):
            browser.press("ArrowRight")
            check(browser.value(HELD), program, lines, place)
        browser.press("End")
        check(browser.value(HELD), program, lines, 15)
        browser.press("l")
        across = [x for _, x, _, _ in browser.value(HELD)["points"]]
        assert abs(across[3] - across[1] - (across[1] - across[0])) < 0.3, f"on the logarithmic scale the lengths stand at {across}"
        browser.press("l")
        check_chart(browser.value(HELD), lines)
        browser.call("Emulation.setDeviceMetricsOverride", width=400, height=800, deviceScaleFactor=1, mobile=False)
        browser.call("Runtime.evaluate", expression="new Promise(done => requestAnimationFrame(() => setTimeout(done, 100)))", awaitPromise=True)
        check(browser.value(HELD), program, lines, 15)
        assert not browser.errors, browser.errors
    finally:
        browser.close()


if __name__ == "__main__":
    try:
        main(*sys.argv[1:])
    except (AssertionError, OSError) as error:
        sys.exit(str(error))
