#!/bin/sh
# Runs tests of GCC, of compiler-rt or of glibc under svemu and under QEMU, and tells where they differ.
set -u

usage() {
    cat <<'END'
usage: sh tests/suites.sh [OPTION ..] GCC|COMPILER_RT|GLIBC

Takes the sources of Debian's package by `apt-get source`, builds its tests with the flags of
docs/TESTING_YOUR_CODE.md over the small runtime of tests/suites, and runs each at several vector lengths under svemu
and, where it is there, qemu-aarch64. What is compared is the status and the output. No source of theirs stands in this
repository: they are kept in the cache folder.

  GCC          of gcc-12 gcc.c-torture/execute (but for its folders builtins and ieee: functions that the compiler knows
               and floating point), gcc.dg/vect and the run tests of gcc.target/aarch64/sve
  COMPILER_RT  the builtins of compiler-rt of llvm-toolchain-14, by its own unit tests
  GLIBC        the string functions for AArch64 of glibc, each against loops over bytes

  --sample N      take every N-th test alone, in the order of their names; else all are taken
  --part WORD     of GCC only the folders whose name has this word: execute, vect or sve
  --lengths LIST  the lengths in bits with commas between; else 128,384,2048
  --budget B      the greatest number of steps of a run; else 50000000
  --options TEXT  the compiler's options in front of those that a test asks for; else -O2
  --sources DIR   where the sources are, or are put; else svemu/suites in the cache folder
  --keep DIR      keep the programs that were built there; the folder mustn't be there yet

svemu is the program that SVEMU names, else the one that `./svemu --program` names. On a terminal a line shows how far
it is.

status: 0 where nothing differs, 1 where a test differs, 2 where the suite can't be run, with a line that says why
END
}

refuse() {
    echo "suites.sh: $1" >&2
    exit 2
}

cd "$(dirname "$0")/.." || exit 1
sources=${XDG_CACHE_HOME:-${HOME:-/tmp}/.cache}/svemu/suites
suite=
passed_on=
while [ $# -gt 0 ]; do
    case $1 in
        --help)
            usage
            exit 0
            ;;
        --sources)
            [ $# -ge 2 ] || refuse "$1 wants a value"
            sources=$2
            shift
            ;;
        --sample | --part | --lengths | --budget | --options | --keep)
            [ $# -ge 2 ] || refuse "$1 wants a value"
            # The values have no line's end.
            passed_on="$passed_on$1
$2
"
            shift
            ;;
        GCC | COMPILER_RT | GLIBC)
            [ -z "$suite" ] || refuse "one suite is wanted, not $suite and $1"
            suite=$1
            ;;
        *) refuse "there is no option or suite $1 (--help lists them)" ;;
    esac
    shift
done
case $suite in
    GCC) package=gcc-12 ;;
    COMPILER_RT) package=llvm-toolchain-14 ;;
    GLIBC) package=glibc ;;
    *) refuse "no suite is named (--help lists them)" ;;
esac
for word in python3 aarch64-linux-gnu-gcc aarch64-linux-gnu-objdump tar xz; do
    command -v "$word" >/dev/null || refuse "without $word nothing can be built"
done
SVEMU=${SVEMU:-$(./svemu --program)}
[ -x "$SVEMU" ] || refuse "there is no built svemu (./svemu --build builds it)"
export SVEMU

# Debian's archive of sources by a list of its own, so that the system's lists stay as they are.
fetch() {
    command -v apt-get >/dev/null || refuse "there is no apt-get, and $sources has no source of $package"
    mkdir -p "$sources/lists/partial" "$sources/archives/partial" || exit 2
    keyring=/usr/share/keyrings/debian-archive-keyring.gpg
    [ -f "$keyring" ] || refuse "without $keyring apt-get trusts no source of Debian"
    echo "deb-src [signed-by=$keyring] http://deb.debian.org/debian bookworm main" >"$sources/sources.list"
    set -- -qq -o "Dir::Etc::sourcelist=$sources/sources.list" -o Dir::Etc::sourceparts=- -o "Dir::State::lists=$sources/lists" \
        -o "Dir::Cache=$sources" -o APT::Sandbox::User=
    (cd "$sources" && apt-get "$@" update && apt-get "$@" source --download-only "$package") >"$sources/apt.log" 2>&1 ||
        refuse "apt-get source $package doesn't work here: $(grep -m 1 '^[EW]:' "$sources/apt.log")"
}

# Takes the parts that are wanted out of the archive.
unpack() {
    rm -rf "$sources/$suite.new"
    mkdir "$sources/$suite.new" || exit 2
    archive=$(find "$sources" -maxdepth 1 -name "${package}_*.orig.tar.*" | sort | tail -n 1)
    case $suite in
        GCC)
            tar -C "$sources/$suite.new" -xf "$archive" --wildcards '*/gcc-*-dfsg.tar.xz' &&
                tar -C "$sources/$suite.new" -xf "$(find "$sources/$suite.new" -name 'gcc-*-dfsg.tar.xz')" --wildcards --no-anchored \
                    '*/gcc/testsuite/gcc.c-torture/execute' '*/gcc/testsuite/gcc.dg/vect' '*/gcc/testsuite/gcc.target/aarch64/sve'
            ;;
        COMPILER_RT)
            tar -C "$sources/$suite.new" -xf "$archive" --wildcards '*/compiler-rt/lib/builtins' '*/compiler-rt/test/builtins'
            ;;
        GLIBC)
            tar -C "$sources/$suite.new" -xf "$archive" --wildcards '*/sysdeps/aarch64/*'
            ;;
    esac || refuse "$archive couldn't be unpacked"
    mv "$sources/$suite.new" "$sources/$suite"
}

[ -d "$sources/$suite" ] || {
    ls "$sources/${package}"_*.orig.tar.* >/dev/null 2>&1 || fetch
    unpack
}
version=$(find "$sources" -maxdepth 1 -name "${package}_*.dsc" | sort | tail -n 1 | sed 's/.*_//; s/\.dsc$//')
printf '%s' "$passed_on" >"$sources/options"
IFS='
'
# shellcheck disable=SC2046 # a word a line
exec python3 tests/suites/suites.py "$suite" "$sources/$suite" "$package ${version:-of an unknown version}" $(cat "$sources/options")
