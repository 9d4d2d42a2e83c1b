#!/bin/sh
# Random input for the program for so many seconds: tests/fuzz.sh SECONDS [SEED]. The program is the one that SVEMU
# names, else the one that ./svemu runs. The last line is 'N cases of seed S, M bad'; a bad case is told with its number
# and its seed, by which it comes again.
set -u

here=$(CDPATH='' cd -- "$(dirname -- "$0")/.." && pwd) || exit 2
case ${1-} in
    '' | *[!0-9]*)
        echo "usage: tests/fuzz.sh SECONDS [SEED]" >&2
        exit 2
        ;;
esac
program=${SVEMU:-$("$here/svemu" --program)} || exit 2
exec python3 "$here/tests/fuzz.py" "$program" "$1" "${2:-$(date +%s)}"
