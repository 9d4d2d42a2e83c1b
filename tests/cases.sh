#!/bin/sh
# Has a program of svemu do the stored runs of the crates svemu and command_cases over real files and streams, but for
# those of streams that fail, and looks how it ends over files and streams of the system that fail:
#   sh tests/cases.sh PROGRAM
# The last line is 'N lines, M differ'.
set -u

cd "$(dirname "$0")/.." || exit 1
program=$1
scratch=$(mktemp -d) || exit 1
trap 'rm -rf "$scratch"' EXIT
trap 'exit 1' HUP INT TERM
mkdir "$scratch/files"

# Makes a script of the cases: what `src/main.rt` of command_cases says of its lines. A stream that fails can't be had
# here, and no word has a byte 0, so such lines are left out. So are the many cases of contexts at the end, whose reports
# tests/threads.py works out.
awk -v quote="'" '
    function quoted(text) {
        gsub(quote, quote "\\" quote quote, text)
        return quote text quote
    }
    # The word that is written so: `@COUNT` is so many letters x.
    function meant(word,   letters) {
        if (word !~ /^@/) return word
        letters = "x"
        while (length(letters) < substr(word, 2) + 0) letters = letters letters
        return substr(letters, 1, substr(word, 2) + 0)
    }
    open { if ($0 == ".") open = 0; print; next }
    /^# ---- contexts, worked out/ { exit }
    $1 == "file" { print "file " quoted($2) " <<" quote "." quote; open = 1; next }
    /^(bytes|fill|lines|load|copy|put|given|supply) / { print $1 " " quoted(substr($0, length($1) + 2)); next }
    /^(images|input|output|errors) / { fails = 1; next }
    $1 == "each" { print "forget"; fails = 0; next }
    /^(line|brief) / {
        text = substr($0, length($1) + 2)
        kept = ""
        if (match(text, / > [^ ]*$/)) {
            kept = substr(text, RSTART + 3)
            text = substr(text, 1, RSTART - 1)
        }
        said = (fails || text ~ /~/ ? "skip " : $1 " ") quoted($0) " " quoted(kept)
        fails = 0
        count = split(text, words, "[ ]")
        for (i = 1; i <= count; i++) said = said " " quoted(meant(words[i]))
        print said
    }' crates/command_cases/stdin >"$scratch/cases"

file() { cat >"$scratch/files/$1"; }
bytes() {
    # shellcheck disable=SC2086
    set -- $1
    name=$1
    shift
    : >"$scratch/files/$name"
    for byte in "$@"; do
        # shellcheck disable=SC2059
        printf "\\$(printf %o "0x$byte")" >>"$scratch/files/$name"
    done
}
fill() {
    # shellcheck disable=SC2086
    set -- $1
    head -c "$2" /dev/zero | tr '\000' "\\$(printf %o "0x$3")" >"$scratch/files/$1"
}
lines() { printf '%s\n' "${1#* }" | tr ';' '\n' >"$scratch/files/${1%% *}"; }
load() { cp "crates/command_cases/data/$1" "$scratch/files/$1"; }
copy() {
    # shellcheck disable=SC2086
    set -- $1
    if [ -f "$scratch/files/$2" ]; then cat "$scratch/files/$2"; fi >"$scratch/copied"
    mv "$scratch/copied" "$scratch/files/$1"
}
put() {
    # shellcheck disable=SC2086
    set -- $1
    name=$1
    offset=$2
    size=$3
    shift 3
    room=$(($(wc -c <"$scratch/files/$name") - offset))
    put=$(echo "$@" | awk -v size="$size" -v room="$room" '{
        for (i = 1; i <= NF; i++) {
            digits = sprintf("%16s", $i)
            gsub(/ /, "0", digits)
            for (k = 0; k < size && room > 0; k++) {
                high = index("0123456789abcdef", substr(digits, 15 - 2 * k, 1)) - 1
                low = index("0123456789abcdef", substr(digits, 16 - 2 * k, 1)) - 1
                printf "\\%03o", high * 16 + low
                room--
            }
        }
    }')
    # shellcheck disable=SC2059
    printf "$put" | dd of="$scratch/files/$name" bs=1 seek="$offset" conv=notrunc 2>/dev/null
}
given() { printf %s "$1" >"$scratch/given"; }
supply() {
    # shellcheck disable=SC2086
    set -- $1
    head -c "$1" /dev/zero | tr '\000' "\\$(printf %o "0x$2")" >>"$scratch/given"
}

# Writes how many bytes a file has.
size() { wc -c <"$1" | tr -d ' '; }

# Writes what `src/shown.rt` of command_cases does of a stream.
show() {
    echo "$1: $(size "$2") bytes"
    if [ "$(LC_ALL=C tr -d '\n -~' <"$2" | wc -c)" -eq 0 ]; then
        awk '!/ 00000*$/ { print "  " $0 }' "$2"
    else
        od -An -v -t x1 -w16 "$2" | awk '/[1-9a-f]/ { printf "%06x0:%s\n", NR - 1, $0 }'
    fi
}

# What the stored output has of each line, one file for each: the name of the ending falls out, which no program tells,
# and of a line that is brief the numbers of the streams.
awk -v to="$scratch/wanted." '
    /^line / { if (count) close(to count); count++; open = 1; first = 1; next }
    /^brief / { if (count) close(to count); count++; open = 0; getline; sub(/^[^;]*, status/, "status")
        sub(/ [0-9a-f]+; errors/, "; errors"); sub(/ [0-9a-f]+: /, ": "); print >(to count); next }
    open && /^($|#|(file|bytes|fill|lines|load|copy|put|given|supply|images|input|output|errors|each) )/ { open = 0 }
    open { if (first) sub(/^.*, status/, "status"); first = 0; print >(to count) }' crates/command_cases/stdout

number=0
done=0
differ=0

# Does a command line.
command_of() {
    number=$((number + 1))
    done=$((done + 1))
    [ -f "$scratch/given" ] || : >"$scratch/given"
    (cd "$scratch/files" && "$program" "$@") <"$scratch/given" >"$scratch/output" 2>"$scratch/errors"
    status=$?
    rm "$scratch/given"
}

# Does a command line, and compares what comes of it.
line() {
    text=$1
    kept=$2
    shift 2
    command_of "$@"
    echo "status $status" >"$scratch/got"
    show output "$scratch/output" >>"$scratch/got"
    show errors "$scratch/errors" >>"$scratch/got"
    [ -z "$kept" ] || cp "$scratch/output" "$scratch/files/$kept"
    compare "$text"
}

# Does a command line, and compares its status, how many bytes come, and the first line of the errors.
brief() {
    text=$1
    shift 2
    command_of "$@"
    first=$(head -n 1 "$scratch/errors")
    echo "status $status; output $(size "$scratch/output"); errors $(size "$scratch/errors"): $first" >"$scratch/got"
    compare "$text"
}

# Compares what came of the last line with what is stored.
compare() {
    if ! cmp -s "$scratch/got" "$scratch/wanted.$number"; then
        differ=$((differ + 1))
        echo "$1"
        diff "$scratch/wanted.$number" "$scratch/got" | head -n 20
    fi
}

# Calls that fail in turn are those of streams in memory: what was given to them is left out.
forget() { rm -f "$scratch/given"; }

# A line whose streams fail is not done.
skip() {
    number=$((number + 1))
    forget
}

case $program in
    /*) ;;
    *) program=$PWD/$program ;;
esac
. "$scratch/cases"

# The stored run of svemu: each line of args is a word.
set --
while IFS= read -r word; do
    set -- "$@" "$word"
done <crates/svemu/args
(cd crates/svemu/data && "$program" "$@") </dev/null >"$scratch/output" 2>"$scratch/errors"
status=$?
done=$((done + 1))
if [ "$status" -ne "$(cat crates/svemu/status)" ] || ! cmp "$scratch/output" crates/svemu/stdout; then
    differ=$((differ + 1))
    echo "the stored run of svemu: status $status"
fi

# Has the shell do a line, in which $1 is the program, and compares its status.
ends() {
    done=$((done + 1))
    (cd "$scratch/files" && sh -c "$2" sh "$program") <"$scratch/empty" >"$scratch/output" 2>"$scratch/errors"
    status=$?
    if [ "$status" -ne "$1" ]; then
        differ=$((differ + 1))
        echo "status $status, and not $1: $2"
    fi
}

# Files and streams of the system that fail: FILE is a folder, the input is closed, the output or the errors are full.
: >"$scratch/empty"
ends 126 '"$1" run . --vl 128 --budget 10'
ends 126 '"$1" asm .'
ends 126 '"$1" dis .'
ends 126 '"$1" dbg seven.elf . --vl 128 --budget 10'
ends 126 '"$1" sweep . --budget 10'
ends 124 '"$1" run copy.elf --vl 128 --budget 100 <&-'
ends 124 '"$1" dbg copy.elf go.txt --vl 128 --budget 100 <&-'
ends 124 '"$1" sweep copy.elf --budget 100 <&-'
ends 125 '"$1" run write.elf --vl 128 --budget 20 >/dev/full'
ends 125 '"$1" run write.elf --vl 128 --budget 20 2>/dev/full'
ends 125 '"$1" run seven.elf --vl 192 --budget 10 2>/dev/full'
ends 125 '"$1" asm four.s >/dev/full'
ends 125 '"$1" asm operands.s 2>/dev/full'
ends 125 '"$1" dis four.elf >/dev/full'
ends 125 '"$1" dbg seven.elf stops.txt --vl 128 --budget 100 >/dev/full'
ends 125 '"$1" sweep seven.elf --budget 10 >/dev/full'

# A word of the command line that isn't text.
ends 118 '"$1" run "$(printf "\\377")" --vl 128 --budget 10'

echo "$done lines, $differ differ"
[ "$differ" -eq 0 ]
