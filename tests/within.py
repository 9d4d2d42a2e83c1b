"""Compares the steps that a page of svemu-curve has within a function that calls no other with the counts of its instructions.

python3 within.py PAGE PROGRAM FUNCTION: the program is that which SVEMU_TOOL names.
"""

import json
import os
import re
import subprocess
import sys

sys.dont_write_bytecode = True
sys.path.insert(0, os.path.join(os.path.dirname(os.path.realpath(__file__)), "..", "tools"))
from svemu_program import Image  # noqa: E402


def main(page, program, function):
    with open(page, encoding="utf-8") as file:
        data = json.loads(re.search(r'<script type="application/json" id="data">(.*?)</script>', file.read())[1])
    drawn = {one["name"]: one["steps"] for one in data["series"]}
    words = [os.environ["SVEMU_TOOL"], "count", program, "--vl", "all", "--budget", "10000000000"]
    lines = subprocess.run(words, stdin=subprocess.DEVNULL, capture_output=True, check=True).stdout.decode().splitlines()
    counts = {int(line.split()[0], 16): list(map(int, line.split()[1:])) for line in lines if not line.startswith("vl ")}
    start, size = next((start, size) for start, (name, size) in Image(program).functions.items() if name == function)
    wanted = [sum(counts[at][k] for at in range(start, start + size, 4) if at in counts) for k in range(16)]
    assert drawn[function] == wanted, f"the page has {drawn[function]}, the counts add up to {wanted}"
    ends = [int(line.split()[-2]) for line in lines if line.startswith("vl ")]
    assert drawn["the program"] == ends, f"the page has {drawn['the program']}, the runs took {ends}"


main(*sys.argv[1:])
