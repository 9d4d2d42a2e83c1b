"""What the tools in Python share: words of a command line, svemu and its sessions, and the frame of a page."""

import base64
import bisect
import functools
import json
import os
import re
import shlex
import shutil
import subprocess
import sys
import tempfile
import zlib

# A script of svemu's debugger has no more lines.
SCRIPT_LINES = 10000

# What a sweep reads, and what a program writes to one file under it, has no more bytes.
STREAM_BYTES = 16777216

LENGTHS = range(128, 2049, 128)

# How a program ended: the beginning of the lines that say so.
ENDING = rb"(?:exit \d+|trap [-a-z]+ 0x[0-9a-f]+ at 0x[0-9a-f]+|spent)"

# A line by which `step` or `go` say where they stopped: what stopped them, the steps since the start and the program
# counter; or how the program ended, and the steps.
STOP = re.compile(rb"(?:(step|break|watch \d+) after (\d+) steps at 0x([0-9a-f]{16})|(" + ENDING + rb" after (\d+) steps))\n")

# A line by which `nm`, or with its size `nm -S`, names code.
NM = re.compile(r"([0-9a-fA-F]+)(?: ([0-9a-fA-F]+))? [TtWwi] (\S+)")

# What svemu-tool says for a person begins so.
SAYS = "svemu: "

WHY = {118: "a word isn't text", 120: "there is no memory", 124: "the input couldn't be read",
       125: "svemu couldn't write", 127: "the program has more than 67108864 bytes"}


class Failure(Exception):
    """Why a tool has no answer, in one line."""


# What --help says of `--open`, behind what a tool says of itself.
OPEN = """
With --open in front of the program the page goes to a file of the cache folder, svemu/pages, and xdg-open opens it;
where there is none, or it can't, standard output has the file's name.
"""


def run(tool, main):
    """Calls main with the words of the command line, and writes the page that it gives, or opens it. On a failure nothing
    is written."""
    try:
        words, shows = without(sys.argv[1:], "--open")
        page = main(words).encode()
        if shows and opened(file := kept(page)):
            return
        sys.stdout.buffer.write(os.fsencode(file) + b"\n" if shows else page)
        sys.stdout.buffer.flush()
    except Failure as failure:
        sys.exit(fail(tool, str(failure)))
    except OSError as error:
        os.dup2(os.open(os.devnull, os.O_WRONLY), 1)
        sys.exit(fail(tool, f"the page couldn't be written: {error.strerror}"))
    except KeyboardInterrupt:
        sys.exit(130)


def fail(tool, why):
    sys.stderr.write(f"{tool}: {why}\n")
    return 2


def without(words, flag):
    """The words without an option that has no value, and whether there was one. All other options have a value."""
    rest, there = list(words), False
    place = 0
    while place < len(rest) and rest[place].startswith("--") and rest[place] not in ("--", "--help"):
        if rest[place] == flag:
            there = True
            del rest[place]
        else:
            place += 2
    return rest, there


def kept(page):
    """The file in the cache folder that has the page, by the name of its title."""
    folder = os.path.join(os.environ.get("XDG_CACHE_HOME") or os.path.expanduser("~/.cache"), "svemu", "pages")
    os.makedirs(folder, exist_ok=True)
    title = re.search(r"<title>(.*?)</title>", page.decode())[1]
    file = os.path.join(folder, (re.sub(r"[^A-Za-z0-9._-]+", "-", title).lstrip(".-")[:200] or "page") + ".html")
    with tempfile.NamedTemporaryFile(dir=folder, delete=False) as new:
        new.write(page)
    os.replace(new.name, file)
    return file


def opened(file):
    """Whether xdg-open is there and has opened a file."""
    found = shutil.which("xdg-open")
    quiet = {"stdin": subprocess.DEVNULL, "stdout": subprocess.DEVNULL, "stderr": subprocess.DEVNULL}
    try:
        return found is not None and subprocess.run([found, file], check=False, **quiet).returncode == 0
    except OSError:
        return False


def options(words, known, usage):
    """The options in front of the program, the program and its arguments. An option's value is added to its list."""
    given = {name: [] for name in known}
    while words and words[0].startswith("--"):
        name = words.pop(0)
        if name == "--":
            break
        if name == "--help":
            sys.stdout.write(usage + OPEN * (">page.html" in usage))
            sys.exit(0)
        if name not in known:
            option, sign, value = name.partition("=")
            if sign and option in known:
                raise Failure(f"{option} and its value are two words: {option} {value}")
            raise Failure(f"there is no option {name} (--help lists them)")
        if not words:
            raise Failure(f"{name} wants a value")
        given[name].append(words.pop(0))
    if not words:
        raise Failure("no program is named (--help shows how)")
    return given, words[0], words[1:]


def read_number(text):
    """The number that a text is, in decimal or behind 0x; -1 where it is none."""
    return int(text, 16 if "x" in text.lower() else 10) if re.fullmatch(r"[0-9]+|0[xX][0-9a-fA-F]+", text) else -1


def number(name, text, least, most):
    """The number that a text is, within a range."""
    if not least <= read_number(text) <= most:
        raise Failure(f"{name} wants a number from {least} to {most}, not {text}")
    return read_number(text)


def length(name, text):
    """The vector length in bits that a text is."""
    if read_number(text) not in LENGTHS:
        raise Failure(f"{name} wants a multiple of 128 from 128 to 2048, not {text}")
    return read_number(text)


class Run:
    """A program with its arguments, its whole input and its limits, and the svemu that runs it, or the svemu-tool."""

    LIMITS = ("--budget", "--pages")
    OPTIONS = ("--vl", *LIMITS)

    def __init__(self, given, program, arguments, by_tool=False):
        def limit(name, variable, usual, read, *range_of):
            if given[name]:
                return read(name, given[name][-1], *range_of)
            text = os.environ.get(variable)
            return read(variable, text, *range_of) if text else usual

        # A tool for all lengths has no --vl.
        self.vl = limit("--vl", "SVEMU_VL", 512, length) if "--vl" in given else 128
        self.budget = limit("--budget", "SVEMU_BUDGET", 10000000000, number, 0, 2**64 - 1)
        self.pages = limit("--pages", "SVEMU_PAGES", None, number, 1, 1048576)
        self.chosen = [word for name in self.LIMITS if given[name] for word in (name, given[name][-1])]
        self.file = "./" + program if program.startswith("--") else program
        self.arguments = ["--", *arguments] if arguments else []
        if by_tool:
            self.tool = find_tool()
        else:
            self.svemu = find_svemu()
        self.input = b"" if sys.stdin is None or sys.stdin.isatty() else sys.stdin.buffer.read()

    @functools.cached_property
    def svemu(self):
        """Of a tool that goes by svemu-tool, looked for once it is called for."""
        return find_svemu()

    def ended(self, *words, given=b""):
        """A call of svemu that came to its end: its status, its output and its errors."""
        try:
            return subprocess.run([self.svemu, *words], input=given, capture_output=True, check=False)
        except (OSError, ValueError) as error:
            raise Failure(f"svemu couldn't be called: {error}") from None

    def call(self, *words, given=b""):
        """What svemu writes to its standard output."""
        done = self.ended(*words, given=given)
        if done.returncode == 0:
            return done.stdout
        raise self.failure(done, words[1])

    def failure(self, done, name):
        """Why a call of svemu or of svemu-tool has no answer, whose first file has this name."""
        last = (done.stderr.decode(errors="replace").strip().splitlines() or [""])[-1]
        if done.returncode == 126:
            return Failure(f"{name} couldn't be read")
        if last.startswith(SAYS):
            return Failure(f"svemu-tool says: {last.removeprefix(SAYS)}")
        if last == f"too long {STREAM_BYTES}":
            return Failure(f"the input, or what the program writes at one of the lengths, has more than {STREAM_BYTES} bytes")
        if last.startswith("refused image "):
            return Failure(self.what_it_is() or f"svemu says: {last} (svemu-runner tells what the file is)")
        return Failure(WHY.get(done.returncode) or (f"svemu says: {last}" if last else f"svemu ended with {done.returncode}"))

    def what_it_is(self):
        """What svemu-tool says of a file that is no image to run; nothing where there is no svemu-tool."""
        try:
            done = subprocess.run([find_tool(), "run", *self.limits(0), self.file], stdin=subprocess.DEVNULL, capture_output=True, check=False)
        except (OSError, ValueError, Failure):
            return ""
        said = done.stderr.decode(errors="replace").strip()
        return f"svemu-tool says: {said.removeprefix(SAYS)}" if done.returncode == 122 and said.startswith(SAYS) else ""

    def limits(self, budget=None):
        """The words that limit a run."""
        return ["--budget", str(self.budget if budget is None else budget)] + (["--pages", str(self.pages)] if self.pages else [])

    def lanes(self, *words):
        """The command that draws a page of this program by svemu-lanes, as it is copied to a shell."""
        return shlex.join([beside_tool("svemu-lanes"), "--open", *words, *self.chosen, self.file, *self.arguments[1:]])

    def session(self, script, budget=None):
        """What a session of the debugger shows, between what the program writes."""
        if len(script) > SCRIPT_LINES:
            raise Failure(f"that makes a script of {len(script)} lines, and {SCRIPT_LINES} are the most: take fewer steps or registers")
        with tempfile.NamedTemporaryFile("w", prefix="svemu-pages.") as file:
            file.write("".join(line + "\n" for line in script))
            file.flush()
            words = [*self.limits(budget), "--vl", str(self.vl), *self.arguments]
            return self.call("dbg", self.file, file.name, *words, given=self.input)

    def texts(self, addresses):
        """The texts of the instructions at these addresses, as `dis` shows them."""
        places = {b"%016x" % address for address in addresses}
        lines = self.call("dis", self.file).splitlines()
        return {int(line[:16], 16): line[26:].decode() for line in lines if line[:16] in places}


def beside_tool(name):
    """A tool by the name that calls it here: its own where the PATH has it, else in the folder by which this one was called."""
    folders = os.path.dirname(sys.argv[0]) or ".", os.path.dirname(os.path.realpath(__file__))
    files = [file for file in (os.path.join(folder, name) for folder in folders) if os.path.isfile(file)]
    known = shutil.which(name)
    return name if not files or known and os.path.samefile(known, files[0]) else files[0]


def find_svemu():
    """svemu, where svemu-runner finds it: the variable SVEMU, beside the tools, in the folder above, in the PATH."""
    tools = os.path.dirname(os.path.realpath(__file__))
    beside = [os.path.join(tools, "svemu"), os.path.join(tools, "..", "svemu")]
    if os.environ.get("SVEMU"):
        found = named_svemu()
    else:
        found = next((file for file in beside if os.path.isfile(file) and os.access(file, os.X_OK)), shutil.which("svemu"))
    if found is None:
        raise no_program("svemu")
    return program_of(found)


def named_svemu():
    """The svemu that the variable SVEMU names."""
    found = shutil.which(os.environ["SVEMU"])
    if found is None:
        raise no_program(os.environ["SVEMU"])
    return found


def no_program(name):
    return Failure(f"there is no program {name} (--help says where it is looked for)")


def find_tool():
    """svemu-tool, where svemu-runner finds it."""
    if os.environ.get("SVEMU_TOOL"):
        found = shutil.which(os.environ["SVEMU_TOOL"])
    else:
        tools = os.path.dirname(os.path.realpath(__file__))
        beside = [os.path.join(tools, "svemu-tool"), os.path.join(tools, "..", "svemu-tool")]
        beside = [os.path.join(os.path.dirname(named_svemu()), "svemu-tool")] if os.environ.get("SVEMU") else beside
        found = next((file for file in beside if os.path.isfile(file) and os.access(file, os.X_OK)), shutil.which("svemu-tool"))
    if found is None:
        raise no_program(os.environ.get("SVEMU_TOOL") or "svemu-tool")
    return program_of(found)


def program_of(found):
    """The program that the script svemu of a checkout runs, so that many runs look once whether a source was touched; else
    the file itself, and the script where there is no program yet."""
    if not os.path.isfile(os.path.join(os.path.dirname(found), "crates.txt")):
        return found
    try:
        named = subprocess.run([found, "--program"], stdin=subprocess.DEVNULL, capture_output=True, check=False)
    except OSError:
        return found
    program = named.stdout.decode(errors="surrogateescape").rstrip("\n")
    return program if named.returncode == 0 and os.access(program, os.X_OK) else found


def code_of_nm(name):
    """The addresses, names and sizes of code that a file with the output of `nm` or `nm -S` has, by address; 0 where no
    size is told."""
    try:
        with open(name, encoding="utf-8", errors="replace") as file:
            lines = file.read().splitlines()
    except OSError as error:
        raise Failure(f"{name} couldn't be read: {error.strerror}") from None
    found = [NM.fullmatch(line.strip()) for line in lines]
    places = [(int(line[1], 16), line[3], int(line[2] or "0", 16)) for line in found if line]
    if not places:
        raise Failure(f"{name} has no line of nm that names code")
    return sorted(places, key=lambda place: place[0])


class Symbols:
    """The names of code in the output of nm; where no file of it is named, the labels that the program's own file has, by
    address, and its objects."""

    def __init__(self, name, labels, objects):
        self.places, self.objects = sorted((address, known[0]) for address, known in labels.items()), objects
        if name is None:
            return
        self.places, self.objects = [(address, known) for address, known, _ in code_of_nm(name)], {}

    def address(self, name):
        for address, other in (*self.places, *((address, known[0]) for address, known in self.objects.items())):
            if other == name:
                return address
        base, _, offset = name.rpartition("+")
        if base and re.fullmatch("0x[0-9a-f]+|[0-9]+", offset):
            return self.address(base) + int(offset, 16 if "x" in offset else 10)
        raise Failure(f"no symbol is named {name}" if self.places else
                      f"{name} is no number, the file has no symbols, and --symbols names no output of nm")

    def label(self, address):
        """The nearest name at or below an address, with what lies between; or nothing."""
        found = bisect.bisect_right(self.places, (address, "\U0010ffff"))
        if not found:
            return ""
        at, name = self.places[found - 1]
        return name if at == address else f"{name}+{address - at:#x}"


def page(title, style, body, data, script, plain=None):
    """A page that needs nothing but itself. Where a number of bytes is given, data that have more are held as a text of
    them, compressed by zlib and in base64."""
    held = json.dumps(data, separators=(",", ":")).replace("<", "\\u003c")
    if plain is not None and len(held) > plain:
        held = f'"{base64.b64encode(zlib.compress(held.encode(), 9)).decode()}"'
    parts = {"TITLE": escape(title), "STYLE": STYLE + style, "BODY": body, "DATA": held, "SCRIPT": script}
    return re.sub(r"\b(TITLE|STYLE|BODY|DATA|SCRIPT)\b", lambda name: parts[name[0]], FRAME)


def escape(text):
    return text.replace("&", "&amp;").replace("<", "&lt;").replace(">", "&gt;").replace('"', "&quot;")


FRAME = """<!DOCTYPE html>
<html lang="en">
<head>
<meta charset="utf-8">
<meta name="viewport" content="width=device-width, initial-scale=1">
<title>TITLE</title>
<style>
STYLE</style>
</head>
<body>
BODY<noscript>This page is drawn by its own script, which is switched off.</noscript>
<script type="application/json" id="data">DATA</script>
<script>
SCRIPT</script>
</body>
</html>
"""

# One typeface; light or dark as the reader's system is set.
STYLE = """\
:root {
  color-scheme: light dark;
  --paper: #ffffff; --raised: #f4f6f8; --ink: #16191d; --pale: #626b76; --line: #c9d0d8; --fill: #d5e5fb; --mark: #a8430a;
}
@media (prefers-color-scheme: dark) {
  :root { --paper: #14171b; --raised: #1d2228; --ink: #e8ebee; --pale: #98a2ae; --line: #3b434c; --fill: #234a78; --mark: #ffb35c; }
}
* { box-sizing: border-box; }
body { margin: 0; background: var(--paper); color: var(--ink); font: 13px/1.45 "DejaVu Sans Mono", ui-monospace, Menlo, Consolas, monospace; }
h1, h2, p { margin: 0; font: inherit; }
button, select, input { font: inherit; color: inherit; }
button, select { background: var(--paper); border: 1px solid var(--line); border-radius: 3px; padding: 2px 8px; }
:focus-visible { outline: 2px solid var(--mark); outline-offset: 1px; }
"""
