"""The steps of a program in QEMU's user mode, for the tests that compare them with svemu's."""
import os
import re
import subprocess
import tempfile

TRACE = re.compile(rb'^Trace \d+: 0x[0-9a-f]+ \[[0-9a-f]+/([0-9a-f]+)/')


def in_qemu(program, bits):
    """The addresses of the instructions that `qemu-aarch64` executes at a vector length, in order, and its status.

    It is run with one instruction in each block (`-singlestep`), and tells by `-d exec,nochain` where each block begins.
    """
    with tempfile.TemporaryDirectory() as folder:
        log = os.path.join(folder, 'log')
        answer = subprocess.run(
            ['qemu-aarch64', '-cpu', f'max,sve-max-vq={bits // 128}', '-singlestep', '-d', 'exec,nochain',
             '-D', log, program], stdin=subprocess.DEVNULL, capture_output=True)
        with open(log, 'rb') as lines:
            found = (TRACE.match(line) for line in lines)
            return [int(trace[1], 16) for trace in found if trace], answer.returncode
