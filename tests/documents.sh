# Tests that the commands which the documents show write what stands below them: lines behind four blanks, a command
# behind `$ `.

# Cuts a document into its commands and what each should write: the files 1.command, 1.wanted and so on in a folder. The
# one that runs these tests is left out.
samples_of() {
    awk -v to="$2/" '
        /^    \$ make check$/ { open = 0; next }
        /^    \$ / {
            number++
            print substr($0, 7) >(to number ".command")
            printf "" >(to number ".wanted")
            open = 1
            next
        }
        /^    / && open { print substr($0, 5) >(to number ".wanted"); next }
        { open = 0 }' "$1"
}

documents() {
    readme_is_short
    reading_is_quoted
    crates_are_told
    links_lead_somewhere
    runner_says_so
    blocks_are_run
    tree=$scratch/tree
    mkdir "$tree"
    ln -s "$top"/* "$tree"
    rm "$tree/svemu" "$tree/svemu-tool"
    rm -f "$tree/made"
    # What the script at the top answers itself it answers here, too.
    printf '#!/bin/sh\ncase $1 in --*) exec "%s/svemu" "$@" ;; esac\nexec "$SVEMU" "$@"\n' "$top" >"$tree/svemu"
    printf '#!/bin/sh\nexec "%s" "$@"\n' "$tool" >"$tree/svemu-tool"
    chmod +x "$tree/svemu" "$tree/svemu-tool"
    for document in README.md docs/MANUAL.md docs/DEBUGGING.md docs/READING.md examples/README.md; do
        samples=$scratch/samples
        rm -rf "$samples"
        mkdir "$samples"
        samples_of "$document" "$samples"
        holds "$document shows commands" [ -f "$samples/1.command" ]
        number=1
        while [ -f "$samples/$number.command" ]; do
            # What lacks its last newline differs: a terminal would show the next prompt behind it.
            (cd "$tree" && timeout 120 sh "$samples/$number.command") <"$input" >"$samples/$number.written" 2>&1
            holds "$document: $(cat "$samples/$number.command")" \
                diff "$samples/$number.wanted" "$samples/$number.written"
            number=$((number + 1))
        done
    done
    other_commands "$tree"
}

# Each link of a document within the checkout leads to a file, and to a headline where it names one.
links_lead_somewhere() {
    for document in README.md docs/*.md examples/README.md; do
        sed '/^```/,/^```/d; s/`[^`]*`//g' "$document" | grep -o '](\([^)]*\))' | sed 's/^](//; s/)$//' | sort -u |
            while read -r link; do
                case $link in
                    http*) continue ;;
                    *#*) headline=${link#*#} ;;
                    *) headline= ;;
                esac
                to=${link%%#*}
                to=${to:+$(dirname "$document")/$to}
                to=${to:-$document}
                [ -e "$to" ] || echo "$document: no file $link"
                [ -z "$headline" ] || sed -n 's/^#* //p' "$to" | tr 'A-Z ' 'a-z-' | sed 's/](.*)//; s/[^a-z0-9_-]//g' |
                    grep -x -e "$headline" >/dev/null || echo "$document: no headline $link"
            done
    done >"$scratch/lost"
    holds "links lead somewhere" sh -c 'cat "$1"; [ ! -s "$1" ]' sh "$scratch/lost"
}

# The first words of the runner's lines that the manual lists are those of the sources, and each fault of a file that
# these tell is in the list.
runner_says_so() {
    awk '/^### What you see of the runner$/ { within = 1; next } /^#/ { within = 0 } within && /^\| `/ { split($0, cells, "|"); print cells[2] }' \
        docs/MANUAL.md | tr '`' '\n' | sed -n 's/^svemu: //p; s/^\.\. //p' |
        sed 's/^FILE //; s/^NAME //; s/^WORD //; s/^N steps are //; s/ *0x.*//; s/^is .VALUE.: //; s/ \.\.$//; s/^HLT$/the instruction &/; s/^the [io][a-z]*put //; s/ clone$//' |
        sort -u >"$scratch/listed"
    cat crates/tool_texts/src/*.rt crates/tool_sites/src/*.rt crates/tool_run/src/*.rt crates/svemu_tool/src/*.rt >"$scratch/sources"
    holds "the manual lists the runner's lines" [ "$(wc -l <"$scratch/listed")" -ge 30 ]
    while read -r words; do
        holds "the runner says: $words" grep -Fq -e "$words" "$scratch/sources"
    done <"$scratch/listed"
    sed -n 's/.*"\(is\|has\|needs\) \([-a-z0-9A-Z]* [-a-z0-9A-Z]*\).*/\1 \2/p' crates/tool_texts/src/refusals.rt | sort -u >"$scratch/faults"
    holds "there are faults of files" [ "$(wc -l <"$scratch/faults")" -ge 15 ]
    while read -r words; do
        holds "the manual lists: $words" grep -Eq -e "^\\| .svemu: .*(FILE|\.\.) $words" docs/MANUAL.md
    done <"$scratch/faults"
}

# Every command that TESTING_YOUR_CODE shows in a block is run by tests/recipes.sh, which names the line above it, but
# for these.
blocks_are_run() {
    awk '/^```sh$/ { print last } NF { last = $0 }' docs/TESTING_YOUR_CODE.md >"$scratch/blocks"
    holds "TESTING_YOUR_CODE has blocks" [ -s "$scratch/blocks" ]
    # With the compilers in the places of their variables.
    for compiler in gcc clang g++ clang++; do
        sed "s/\$compiler/$compiler/g; s/\$1/$compiler/g" tests/recipes.sh
    done | tr -d '\134' >"$scratch/runs"
    while read -r above; do
        case $above in
            # A place to fill in.
            "checkout of svemu is:") ;;
            *) holds "recipes.sh runs the block under: $above" grep -Fq -e "$above" "$scratch/runs" ;;
        esac
    done <"$scratch/blocks"
}

# The commands that the documents show without a `$` end as tests/commands.txt says, or it says by what else they are run
# or why they aren't.
other_commands() {
    ! lacks "the other commands of the documents" python3 || return 0
    python3 tests/commands.py >"$scratch/shown" 2>"$scratch/errors"
    holds "each command of the documents is run, or listed" sh -c '[ "$1" -eq 0 ] || { cat "$2"; false; }' sh "$?" "$scratch/errors"
    holds "there are such commands" [ "$(wc -l <"$scratch/shown")" -ge 20 ]
    while read -r wanted command; do
        # Those that are installed stand in tools/ here, and ./svemu at the top.
        run_as=$(printf '%s\n' "$command" | sed 's,^svemu-,tools/&,; s,^svemu ,./&,')
        (cd "$1" && mkdir -p made && timeout 120 sh -c "$run_as") <"$input" >/dev/null 2>"$scratch/errors"
        holds "a document's $command" [ "$?" -eq "$wanted" ]
    done <"$scratch/shown"
    # What is in no line is told, and so is a line that nothing shows, or that names no part.
    grep -v '^not, it changes' tests/commands.txt >"$scratch/fewer.txt"
    holds "a command that isn't listed" sh -c 'python3 tests/commands.py "$1" 2>&1 | grep -q "no line has: apt install clang lld"' sh "$scratch/fewer.txt"
    { cat tests/commands.txt; echo 'not, nobody knows it: make nothing'; } >"$scratch/more.txt"
    holds "a line without a command" sh -c 'python3 tests/commands.py "$1" 2>&1 | grep -q "no document shows it: .*make nothing"' sh "$scratch/more.txt"
    { cat tests/commands.txt; echo 'by no such part: make nothing'; } >"$scratch/more.txt"
    holds "a part that there isn't" sh -c 'python3 tests/commands.py "$1" 2>&1 | grep -q "there is no such part: "' sh "$scratch/more.txt"
    holds "make check runs these tests" sh -c 'make -n check | grep -q tests/tools.sh'
}

# ARCHITECTURE's table of crates has each crate of crates.txt in its layer, and CONTRACTS names each.
crates_are_told() {
    holds "the layers of the crates" awk '
        FNR == NR && /^[a-z0-9_]+:/ {
            name = substr($1, 1, length($1) - 1)
            for (i = 2; i <= NF; i++) if ($i in layer && layer[$i] >= layer[name]) layer[name] = layer[$i] + 1
            layer[name] += 0
        }
        FNR != NR && /^\| [0-9]+ \| `/ {
            split($0, cells, "|")
            n = split(cells[3], names, "`")
            for (i = 2; i <= n; i += 2) {
                told[names[i]] = 1
                if (!(names[i] in layer)) { print names[i] ": no such crate"; bad = 1 }
                else if (layer[names[i]] != cells[2] + 0) { print names[i] ": its layer is " layer[names[i]]; bad = 1 }
            }
        }
        END {
            for (name in layer) if (!(name in told)) { print name ": not in the table"; bad = 1 }
            exit bad
        }' crates.txt docs/ARCHITECTURE.md
    holds "CONTRACTS names each crate" sh -c 'for name in $(sed -n "s/^\([a-z0-9_]*\):.*/\1/p" crates.txt); do
        grep -q "\`$name\`" docs/CONTRACTS.md || { echo "$name"; false; } || exit 1; done'
}

# README is short: at most 300 lines, and no long sentence.
readme_is_short() {
    holds "README has at most 300 lines" [ "$(wc -l <README.md)" -le 300 ]
    has_no_long_sentence README.md
}

# What READING quotes and counts stands so in the definitions, and what is changed in a copy is told.
reading_is_quoted() {
    has_no_long_sentence docs/READING.md
    ! lacks "what READING quotes" python3 || return 0
    copies=$scratch/copies
    mkdir "$copies"
    number=0
    # What is changed, how, and what is told of it.
    cat >"$scratch/changes" <<'CHANGES'
another name in a quotation@s/^    merging e pg f zd v = /    zeroing e pg f zd v = /@hasn't this line there: zeroing
a line that is left out@/^        let q . Option/d@hasn't this line there:     let ffr
lines in another order@/^    lane e bytes k = /{h;d;};/^    byte_in /G@hasn't this line there: lane e bytes k
another indentation@s/^        ((23 to/       ((23 to/@hasn't this line there:    ((23 to
two lines as one@s/^    row (Binary .*/& \\/@hasn't this line there: row (Binary
another file above a block@s/^\(What a call comes to.*\)SystemCall.antt/\1Start.antt/@Start.antt hasn't this line there
a file that there isn't@s/SystemCall.antt/SystemCalls.antt/@there is no file crates/emu_system/specs/SystemCalls.antt
no file above a block@s/^And the bytes, in .*/And the bytes:/@no file of crates/ is named
another length@s/`Scalar` [0-9]*/`Scalar` 9999/@lines, not 9999
a file that isn't listed@s/ `Masks` [0-9]*,//@text_model/Masks isn't listed
a file that isn't trusted@s/`Masks` /`Marks` /@text_model/Marks isn't trusted
a file that is listed twice@s/`Masks` [0-9]*,/& &/@text_model/Masks is listed twice
a long line@s/^Aloud:/& aloud, so that it is heard in the whole room, and not in its first row alone,/@more than 120
no quotation@/^    [^$ ]/d@quotations, fewer than
CHANGES
    while IFS=@ read -r what change said; do
        number=$((number + 1))
        sed "$change" docs/READING.md >"$copies/$number.md"
    done <"$scratch/changes"
    {
        cat docs/READING.md
        awk 'BEGIN { for (k = 0; k < 250; k++) print "" }'
    } >"$copies/long.md"
    # All in one call, which finds the definitions once.
    python3 tests/reading.py docs/READING.md "$copies"/*.md >"$scratch/differing"
    holds "changed copies of READING are refused" [ "$?" -eq 1 ]
    holds "READING quotes the definitions" sh -c '! grep "^docs/READING.md: " "$1"' sh "$scratch/differing"
    holds "READING with more lines" grep -q "/long.md: .* lines, more than 250$" "$scratch/differing"
    number=0
    while IFS=@ read -r what change said; do
        number=$((number + 1))
        holds "READING with $what" sh -c 'grep -F -e "$1: " "$2" | grep -Fq -e "$3"' sh "$copies/$number.md" \
            "$scratch/differing" "$said"
    done <"$scratch/changes"
}

# No sentence of a document has more than 30 words, in text and in tables.
has_no_long_sentence() {
    holds "$1 has no long sentence" awk '
        function count(text,  n, i, j, m, parts, words, known) {
            gsub(/`[^`]*`/, "code", text)
            gsub(/\]\([^)]*\)/, "", text)
            gsub(/[.?!][")*]* /, "&\n", text)
            n = split(text, parts, "\n")
            for (i = 1; i <= n; i++) {
                m = split(parts[i], words, " ")
                known = 0
                for (j = 1; j <= m; j++) known += words[j] ~ /[A-Za-z0-9]/
                if (known > 30) { print known ": " parts[i]; long = 1 }
            }
        }
        function done() { count(text); text = "" }
        /^    / && text == "" { next }
        /^\|/ { done(); n = split($0, cells, "|"); for (k = 1; k <= n; k++) count(cells[k]); next }
        /^- / || /^$/ || /^#/ { done() }
        NF { text = text " " $0 }
        END { done(); exit long }' "$1"
}

# Where a form of the tables stands, for whoever adds one.
places_of_forms() {
    holds "a form stands in its table" sh -c '"$1/tools/row" Adr | grep -q "^crates/a64_insn/specs/Table.antt:"' sh "$top"
    holds "a form stands in its code" sh -c '"$1/tools/row" Binary | grep -q "^crates/sve_data/src/"' sh "$top"
    holds "no table has the form" sh -c '! "$1/tools/row" Nothing 2>/dev/null' sh "$top"
    holds "both tables are counted" sh -c '[ "$("$1/tools/row" --all | grep -c " forms, each in ")" -eq 2 ]' sh "$top"
}
