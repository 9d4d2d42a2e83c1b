#!/usr/bin/env python3
"""Makes the calls of the cases of crates/command_cases/stdin under qemu-aarch64, and writes each answer that isn't the
case's, but for those of KNOWN.

Cases with items that QEMU has nothing like (`pages`, `portion`, `fail`) are left out, and so are what is asked between
the calls and the lines with ` = `, which make no call of the system.
"""
import collections
import os
import re
import struct
import subprocess
import sys
import tempfile

# ioctl, read, write, readv, writev: their file 3 may be one that QEMU has open, so 300 is taken for it
FILE_CALLS = (29, 63, 64, 65, 66)

HERE = os.path.dirname(os.path.abspath(__file__))
DATA = 0x401000

# Where QEMU, or Linux below it, goes by another rule: what a difference reads like, and why
KNOWN = (
    (r"[^:]*:-38,", "a call that svemu doesn't have"),
    (r"(96|17\d|0x1000000ad|0xffffffff000000ae)[,:]", "the process and the user are the host's"),
    (r"29,.*0xffffffffffffffda$", "QEMU doesn't know this request of ioctl"),
    (r"167,(15|50)[,:]", "an option of prctl that svemu doesn't have"),
    (r"6[3456],.*:-9,", "QEMU tests the memory, or the count of ranges, before the file"),
    (r"6[34],[01],-1,0:", "Linux tests the address of a range of no bytes"),
    (r"6[34],[01],0x7fffffffefff,1:", "QEMU's stack is elsewhere"),
    (r"63,0,0x401000,1:1,", "QEMU reads only into pages that may be read too"),
    (r"6[56],[01],0x401000,2:-22,", "QEMU tests a range before the next one's length"),
    (r"6[56],[01],0x401000,2:-14,", "Linux moves the bytes of the ranges before the bad one"),
    (r"214,.*nothing$", "QEMU's brk ends where munmap took heap pages"),
    (r"215,-4096,.*nothing$|226,-4096,.*nothing$", "QEMU ends where a range wraps"),
    (r"215,.*:0, .*ffea$", "QEMU has no addresses there"),
    (r"222,", "mmap takes more flags and rights, and other addresses"),
    (r"6[34],[012],0x7effffffff.*ff2$", "mmap takes other addresses"),
    (r"226,[^,]*,4096,(8|0x100000001):", "QEMU takes other bits of the rights"),
    (r"226,[^,]*,0,.*ff4$", "QEMU's mprotect of no bytes"),
    (r"226,0x7fffffeff000,", "QEMU's stack is elsewhere"),
    (r"(output|errors)=", "what was written by a call that is known above"),
)


def number(text):
    value = int(text.removeprefix("-"), 0)
    return (-value if text.startswith("-") else value) % 2**64


def text_bytes(text):
    return text.replace(".", "\0").encode()


def register(number_of, value):
    bases = (0xD2800000, 0xF2A00000, 0xF2C00000, 0xF2E00000)
    return [base | (value >> 16 * k) % 2**16 << 5 | number_of for k, base in enumerate(bases)]


def call_words(call):
    numbers = [number(text) for text in call.split(",")]
    if numbers[0] in FILE_CALLS and numbers[1] % 2**32 == 3:
        numbers[1] += 297
    words = register(8, numbers[0])
    for k in range(6):
        words += register(k, numbers[k + 1] if k + 1 < len(numbers) else 0)
    return words + [0xD4000001]


def image(items):
    words, data, has_data = [], bytearray(4096), False
    for name, value in items:
        head, _, tail = value.partition(":")
        if name == "call":
            words += call_words(head)
        elif name in ("data", "entry"):
            has_data = True
            at = number(head) - DATA
            put = text_bytes(tail)
            if name == "entry":
                put = struct.pack("<QQ", *map(number, tail.split(",")))
            data[at:at + len(put)] = put
    words += call_words("94,0")
    code = struct.pack("<%dI" % len(words), *words).ljust(4096, b"\0")
    assert len(code) == 4096 and len(data[:4096]) == 4096
    head = struct.pack("<16sHHIQQQIHHHHHH", b"\x7fELF\2\1\1", 2, 183, 1, 0x400000, 64, 0, 0, 64, 56, 1 + has_data, 64, 0, 0)
    head += struct.pack("<IIQQQQQQ", 1, 5, 4096, 0x400000, 0x400000, 4096, 4096, 4096)
    head += struct.pack("<IIQQQQQQ", 1, 6, 8192, DATA, DATA, 4096, 4096, 4096)
    return head.ljust(4096, b"\0") + code + bytes(data[:4096])


def answers_of(log):
    for line in log.splitlines():
        found = re.search(r"\) *= (-?\w+)(?: errno=(\d+))?", line) or re.search(r"(Unknown syscall)", line)
        if found and found[1] == "Unknown syscall":
            yield -38 % 2**64
        elif found:
            yield -int(found[2]) % 2**64 if found[2] else number(found[1])


def differences(items, folder):
    path, log = os.path.join(folder, "case.elf"), os.path.join(folder, "log")
    with open(path, "wb") as file:
        file.write(image(items))
    os.chmod(path, 0o755)
    first = dict(reversed(items))
    bits = int(first.get("vl", "128"))
    cpu = "max,pauth=off,sve-max-vq=%d,sve-default-vector-length=%d" % (bits // 128, bits // 8)
    run = subprocess.run(["qemu-aarch64", "-cpu", cpu, "-strace", "-D", log, path], input=text_bytes(first.get("input", "")),
                         capture_output=True, check=False)
    with open(log, errors="replace") as file:
        answers = list(answers_of(file.read()))
    for k, (call, wanted) in enumerate(value.split(":") for name, value in items if name == "call"):
        if wanted.startswith("exit/"):
            if run.returncode != int(wanted[5:]):
                yield "%s: exit %d" % (call, run.returncode)
        elif k >= len(answers) or answers[k] != number(wanted):
            yield "%s:%s, QEMU %s" % (call, wanted, hex(answers[k]) if k < len(answers) else "nothing")
    last = dict(items)
    for name, found in (("output", run.stdout), ("errors", run.stderr)):
        if name in last and text_bytes(last[name]) != found:
            yield "%s=%s, QEMU %r" % (name, last[name], found)


def main():
    cases, differ, known = 0, 0, collections.Counter()
    with open(os.path.join(HERE, "..", "..", "command_cases", "stdin")) as file, tempfile.TemporaryDirectory() as folder:
        for line in file.read().partition("= calls\n")[2].partition("\n= ")[0].splitlines():
            line = line.strip()
            if not line or line.startswith("#") or " = " in line:
                continue
            items = [tuple(item.split("=", 1)) for item in line.split(" ")]
            if {"pages", "portion", "fail"} & dict(items).keys():
                continue
            cases += 1
            found = list(differences(items, folder))
            reasons = [next((reason for form, reason in KNOWN if re.match(form, text)), None) for text in found]
            if None in reasons or found and found[0].startswith(("output=", "errors=")):
                differ += 1
                print(line, *found, sep="\n    ")
            else:
                known.update(set(reasons))
    for reason, count in known.most_common():
        print("%d: %s" % (count, reason))
    print("%d cases, %d differ otherwise" % (cases, differ))


main()
