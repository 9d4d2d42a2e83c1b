#!/usr/bin/env python3
"""Runs a command with a terminal as its output and its errors, writes what it wrote there, and ends with its status.

usage: python3 tests/terminal.py COMMAND [WORD ..]
"""
import os
import pty
import subprocess
import sys


def main(words):
    if not words or words == ["--help"]:
        print(__doc__.strip())
        return 0 if words else 2
    ours, terminal = pty.openpty()
    try:
        run = subprocess.Popen(words, stdin=subprocess.DEVNULL, stdout=terminal, stderr=terminal)
    except OSError as why:
        print(f"terminal.py: {words[0]}: {why.strerror}", file=sys.stderr)
        return 2
    os.close(terminal)
    while True:
        try:
            said = os.read(ours, 4096)
        except OSError:  # the terminal's other end is closed
            break
        if not said:
            break
        sys.stdout.buffer.write(said.replace(b"\r\n", b"\n"))
    return run.wait()


if __name__ == "__main__":
    sys.exit(main(sys.argv[1:]))
