# shellcheck shell=sh
# shellcheck disable=SC2016,SC2154 # shells that are called expand them; tools.sh sets the others
# Tests of ./svemu, ./svemu-tool, make install, tools/release and .ci/run, in a checkout of few crates with programs and a
# kit that are stand-ins; tools.sh reads it.

# Makes the checkout, and a kit whose `rt` builds a program that says the last line of its source.
make_checkout() {
    checkout=$scratch/"a checkout"
    rm -rf "$checkout" "$scratch/cache"
    mkdir -p "$checkout/crates/low/src" "$checkout/crates/apart/src" "$checkout/crates/svemu/src" "$checkout/crates/svemu_tool/src" "$checkout/crates/svemu_tool/data" "$checkout/tests" "$checkout/examples" "$scratch/kit/bin" "$scratch/kit/toolchain/bin"
    cp -R svemu svemu-tool Makefile .ci tools docs "$checkout"
    cp examples/start.S examples/*.h "$checkout/examples"
    rm -rf "$checkout/docs/measured"
    printf 'low:\nsvemu: low\napart: low\nsvemu_tool: low\n' >"$checkout/crates.txt"
    echo low >"$checkout/crates/low/src/lib.rt"
    echo apart >"$checkout/crates/apart/src/lib.rt"
    echo first >"$checkout/crates/svemu/src/main.rt"
    echo tool >"$checkout/crates/svemu_tool/src/main.rt"
    printf 'run\nexit7.elf\n' >"$checkout/crates/svemu_tool/args"
    echo 5 >"$checkout/crates/svemu_tool/status"
    echo 'tool: run exit7.elf' >"$checkout/crates/svemu_tool/stdout"
    printf '#!/bin/sh\necho "tools pass"\n' >"$checkout/tests/tools.sh"
    printf '#!/bin/sh\ncat "$1" >cases-of; exit "$(cat cases-end)"\n' >"$checkout/tests/cases.sh"
    cat >"$scratch/kit/bin/rt" <<'KIT'
#!/bin/sh
kit=$(dirname "$0")/..
here=$PWD
case "$*" in
    version) cat "$kit/version" ;;
    doc) echo "$kit/START-HERE.md" ;;
    "all check" | "all check "*)
        mkdir -p crates/low/out/incremental crates/low/out/rlib
        echo "== low"
        ;;
    run | ci)
        for crate in svemu_tool svemu; do
            [ "$1" = run ] && [ "${PWD##*/}" != "$crate" ] && continue
            [ "$1" = run ] || cd "$here/crates/$crate" || exit
            mkdir -p out
            { echo '#!/bin/sh' && echo "[ \"\$#\" -gt 0 ] || exit $(cat "$kit/refusal")" && echo "echo \"$(tail -n 1 src/main.rt): \$*\"" && echo 'exit 5'; } >"out/$crate"
            chmod +x "out/$crate"
            [ "$1" = ci ] || { "out/$crate" && exit; exit; }
        done
        printf 'rt: low is kept: an earlier run\nrt: svemu proved\nrt: svemu: its tests proved\n2 passed, 0 failed\n'
        exit "$(cat "$kit/ends")"
        ;;
    *) exit 2 ;;
esac
KIT
    printf '#!/bin/sh\ncp "$4" "$3"\n' >"$scratch/kit/toolchain/bin/clang"
    chmod +x "$scratch/kit/bin/rt" "$scratch/kit/toolchain/bin/clang"
    echo "rattle-kit-0 stand-in" >"$scratch/kit/version"
    echo 121 >"$scratch/kit/refusal"
    echo 0 >"$scratch/kit/ends"
}

# Runs a command in the checkout with no kit, or with the stand-in.
bare() {
    cd "$checkout" || exit 1
    run env -u SVEMU PATH="$no_kit" XDG_CACHE_HOME="$scratch/cache" "$@"
    cd "$top" || exit 1
}

with_kit() {
    cd "$checkout" || exit 1
    run env -u SVEMU PATH="$scratch/kit/bin:$no_kit" XDG_CACHE_HOME="$scratch/cache" "$@"
    cd "$top" || exit 1
}

asks='svemu: the sources have changed since dist/ was made; a build needs the Rattle kit, whose command rt isn'"'"'t in the PATH (README says what it is)\n'

# Whether what a start says on a terminal is this line, which it doesn't say elsewhere.
says_on_terminal() {
    ! lacks "$1" python3 || return 0
    wanted=$2
    shift 2
    bare python3 "$top/tests/terminal.py" ./svemu "$@"
    holds "on a terminal: $wanted" grep -Fqx "$wanted" "$scratch/output"
}

# The PATH without a kit: each folder of it that has no rt, and where rt stands beside others, those by links.
without_kit() {
    mkdir -p "$scratch/others"
    no_kit=$scratch/others
    before=$IFS
    IFS=:
    for folder in $PATH; do
        if [ -e "$folder/rt" ]; then
            for file in "$folder"/*; do
                [ "${file##*/}" = rt ] || ln -s "$file" "$scratch/others" 2>/dev/null
            done
        else
            no_kit=$no_kit:$folder
        fi
    done
    IFS=$before
}

start() {
    without_kit
    make_checkout
    with_kit sh -c 'mkdir dist && cp crates.txt dist && rt ci >ci && tools/release --x86-64-only && rm -r crates/svemu/out crates/svemu_tool/out'
    holds "tools/release makes dist/" sh -c "[ $status -eq 0 ] && cd '$checkout/dist' && [ \"\$(LC_ALL=C ls)\" = 'svemu-tool-x86_64.gz
svemu-tool.txt
svemu-x86_64.gz
svemu.txt' ]"
    start_without_kit
    start_of_the_tool
    start_looks_again
    start_by_other_ways
    start_builds
    start_refusals
    release_checks
    gate_ends
    install_without_kit
    start_on_a_terminal
}

# On a terminal a line that may be refused is first asked of with a budget of 0, so that it takes no step twice.
start_on_a_terminal() {
    ! lacks "a start on a terminal" python3 || return 0
    mkdir -p "$checkout/crates/svemu/out"
    printf '#!/bin/sh\necho "$*" >>"%s"\nexit 123\n' "$scratch/called" >"$checkout/crates/svemu/out/svemu"
    chmod +x "$checkout/crates/svemu/out/svemu"
    while IFS='|' read -r words asked; do
        : >"$scratch/called"
        # shellcheck disable=SC2086 # words
        bare python3 "$top/tests/terminal.py" ./svemu $words
        printf '%s' "${asked:+$asked
}$words
" >"$scratch/calls"
        holds "on a terminal: $words" \
            sh -c '[ "$1" -eq 123 ] && diff "$2" "$3"' sh "$status" "$scratch/calls" "$scratch/called"
    done <<'END'
run p --vl 128 --budget 7|run p --vl 128 --budget 0
run p --budget 9999999999999999999 --vl 128 -- --budget 5|run p --budget 0 --vl 128 -- --budget 0
sweep p --budget 1e9|sweep p --budget 1e9
sweep p --budget 010|sweep p --budget 010
threads p s --vl 128 --budget 18446744073709551615|
dbg p /dev/null --vl 128 --budget 5|
load 5|
dis p|
END
    : >"$scratch/called"
    bare ./svemu run p --vl 128 --budget 7
    holds "no such question elsewhere" \
        sh -c '[ "$1" -eq 123 ] && [ "$(cat "$2")" = "run p --vl 128 --budget 7" ]' sh "$status" "$scratch/called"
    rm -r "$checkout/crates/svemu/out"
}

start_without_kit() {
    says_on_terminal "a first start" 'svemu: runs the program of dist/, proved with rattle-kit-0 stand-in' a
    bare ./svemu --clean
    bare ./svemu a 'b c'
    ended "a first start" 5 'first: a b c\n' ''
    bare ./svemu a
    ended "a second start" 5 'first: a\n' ''
    bare sh -c 'cd crates && ../svemu b'
    ended "a start from elsewhere" 5 'first: b\n' ''
    bare sh svemu c
    ended "a start by sh" 5 'first: c\n' ''
    bare sh -c 'printf "#!/bin/sh\nexit 1\n" >sha256sum; chmod +x sha256sum; PATH=$PWD:$PATH ./svemu d'
    ended "a start where nothing was touched takes no checksum" 5 'first: d\n' ''
    bare ./svemu --program
    holds "the program is named" sh -c "[ $status -eq 0 ] && '$(cat "$scratch/output")' e | grep -qx 'first: e'"
    bare ./svemu --sources
    sum=$(cat "$scratch/output")
    wanted=$(cd "$checkout" && { printf 'low:\nsvemu: low\n' && sha256sum crates/low/src/lib.rt crates/svemu/src/main.rt; } | LC_ALL=C sort | sha256sum)
    holds "the checksum of the sources" [ "$sum" = "${wanted%% *}" ]
    bare ./svemu --version
    ended "the version" 0 "svemu 0.1.0, sources $(printf %.12s "$sum"), proved with rattle-kit-0 stand-in\n" ''
    bare ./svemu --help
    holds "help" grep -qx '       ./svemu --build .*' "$scratch/output"
}

# The second program is chosen as the first, and by itself.
start_of_the_tool() {
    bare ./svemu-tool a 'b c'
    ended "a first start of svemu-tool" 5 'tool: a b c\n' ''
    bare sh -c 'PATH=$PWD:$PATH ./svemu-tool d; ended=$?; rm sha256sum; exit "$ended"'
    ended "its second takes no checksum" 5 'tool: d\n' ''
    bare ./svemu a
    ended "and svemu is svemu" 5 'first: a\n' ''
    bare ./svemu-tool --program
    holds "svemu-tool is named" sh -c "[ $status -eq 0 ] && '$(cat "$scratch/output")' e | grep -qx 'tool: e'"
    bare ./svemu-tool --version
    ended "svemu-tool has its version itself" 5 'tool: --version\n' ''
    echo other >"$checkout/crates/svemu_tool/src/main.rt"
    bare ./svemu-tool a
    ended "other sources of svemu-tool" 1 '' "svemu-tool: ${asks#svemu: }"
    bare ./svemu a
    ended "which svemu doesn't stand on" 5 'first: a\n' ''
    with_kit ./svemu-tool a
    ended "svemu-tool is built" 5 'other: a\n' \
        "svemu-tool: the sources have changed since dist/ was made: building the proved program, which takes a while (crates as they are proved:)\n== low\n"
    echo tool >"$checkout/crates/svemu_tool/src/main.rt"
    rm -r "$checkout/crates/svemu_tool/out"
    bare ./svemu-tool a
    ended "and that of dist/ again" 5 'tool: a\n' ''
}

# Each change of a source is seen, whatever its time.
start_looks_again() {
    main=$checkout/crates/svemu/src/main.rt
    touch "$main"
    bare ./svemu a
    ended "a source that was touched" 5 'first: a\n' ''
    echo more >>"$checkout/crates/apart/src/lib.rt"
    bare ./svemu a
    ended "a source that svemu doesn't stand on" 5 'first: a\n' ''
    echo second >"$scratch/second"
    touch -r "$main" "$scratch/second"
    cp -p "$scratch/second" "$main"
    bare ./svemu a
    ended "another source, as old as before" 1 '' "$asks"
    bare ./svemu --version
    holds "the version of sources that aren't built" grep -qx 'svemu 0.1.0, sources [0-9a-f]\{12\}, not built' "$scratch/output"
    bare ./svemu --program
    ended "no program of them to name" 1 '' 'svemu: the sources have changed since dist/ was made (./svemu --build builds the program)\n'
    echo first >"$main"
    bare ./svemu a
    ended "the source as it was" 5 'first: a\n' ''
    echo new >"$checkout/crates/low/src/new.rt"
    bare ./svemu a
    ended "one source more" 1 '' "$asks"
    rm "$checkout/crates/low/src/new.rt"
    bare ./svemu a
    ended "and without it" 5 'first: a\n' ''
    mkdir "$checkout/crates/low/specs"
    echo spec >"$checkout/crates/low/specs/Lib.antt"
    bare ./svemu a
    ended "a folder of sources more" 1 '' "$asks"
    rm -r "$checkout/crates/low/specs"
    mkdir -p "$checkout/crates/low/proofs/out"
    bare ./svemu a
    ended "a folder without a file" 5 'first: a\n' ''
    echo proof >"$checkout/crates/low/proofs/out/Answers.antt"
    bare ./svemu a
    ended "a proof of a function named out" 1 '' "$asks"
    rm -r "$checkout/crates/low/proofs"
    sed 's/^svemu: low/svemu:  low/' "$checkout/crates.txt" >"$scratch/list"
    cp "$scratch/list" "$checkout/crates.txt"
    bare ./svemu a
    ended "another line of crates.txt" 1 '' "$asks"
    printf 'low:\nsvemu: low\nsvemu_tool: low\n' >"$checkout/crates.txt"
    bare ./svemu a
    ended "a line of another crate" 5 'first: a\n' ''
}

# A `find` that can't be given a list of names finds them itself; and a checkout whose name is long has a number.
start_by_other_ways() {
    mkdir -p "$scratch/older"
    printf '#!/bin/sh\n[ "$1" != -files0-from ] || exit 1\nexec "%s" "$@"\n' "$(command -v find)" >"$scratch/older/find"
    printf '#!/bin/sh\nexit 1\n' >"$scratch/older/sha256sum"
    chmod +x "$scratch/older/find" "$scratch/older/sha256sum"
    touch "$checkout/crates.txt"
    bare sh -c 'mkdir only && cp "$1/older/find" only && PATH=$PWD/only:$PATH ./svemu a' sh "$scratch"
    ended "an older find" 5 'first: a\n' ''
    bare sh -c 'PATH=$1/older:$PATH ./svemu a' sh "$scratch"
    ended "an older find, where nothing was touched" 5 'first: a\n' ''
    echo new >"$checkout/crates/low/src/new.rt"
    bare sh -c 'PATH=$PWD/only:$PATH ./svemu a'
    ended "an older find, and one source more" 1 '' "$asks"
    rm -r "$checkout/crates/low/src/new.rt" "$checkout/only"
    for name in long_%70d of%%s%d; do
        # shellcheck disable=SC2059 # the format is the name
        other=$scratch/$(printf "$name" 1)
        cp -Rp "$checkout" "$other"
        for words in "a" "b c"; do
            run env -u SVEMU PATH="$no_kit" XDG_CACHE_HOME="$scratch/others cache" "$other/svemu" "$words"
            holds "a checkout in ${other##*/}" grep -qx "first: $words" "$scratch/output"
        done
        holds "its place is a number" sh -c 'ls "$1/svemu" | grep -qx "[0-9]*" && rm -r "$1"' sh "$scratch/others cache"
    done
}

start_builds() {
    echo second >"$checkout/crates/svemu/src/main.rt"
    with_kit ./svemu a
    ended "changed sources are built" 5 'second: a\n' \
        "svemu: the sources have changed since dist/ was made: building the proved program, which takes a while (crates as they are proved:)\n== low\n"
    bare ./svemu a
    ended "what was built is run, with no kit" 5 'second: a\n' ''
    holds "the libraries stay, and no work beside them" sh -c "cd '$scratch'/cache/svemu/*/crates/low/out && [ \"\$(ls)\" = rlib ]"
    with_kit ./svemu --version
    holds "the version of what was built" \
        grep -qx 'svemu 0.1.0, sources [0-9a-f]\{12\}, proved with rattle-kit-0 stand-in' "$scratch/output"
    echo first >"$checkout/crates/svemu/src/main.rt"
    with_kit ./svemu a
    ended "sources of dist/ again, newer than what was built" 5 'first: a\n' ''
    with_kit ./svemu --build
    ended "a build that is asked for" 0 '' \
        "svemu: building the proved program, which takes a while (crates as they are proved:)\n== low\n"
    bare ./svemu a
    ended "what was built is run before dist/" 5 'first: a\n' ''
    rm "$scratch"/cache/svemu/*/svemu.chosen
    says_on_terminal "the program that was built" 'svemu: runs the program that was built here' a
    rm -r "$checkout/crates/svemu/out"
    bare ./svemu a
    ended "and dist/ where it is gone" 5 'first: a\n' ''
    bare ./svemu --clean
    holds "the cache folder is emptied" sh -c "[ $status -eq 0 ] && [ -z \"\$(ls '$scratch/cache/svemu')\" ]"
    bare ./svemu a
    ended "and dist/ unpacked again" 5 'first: a\n' ''
    echo 9 >"$scratch/kit/refusal"
    echo second >"$checkout/crates/svemu/src/main.rt"
    with_kit ./svemu a
    echo 121 >"$scratch/kit/refusal"
    echo first >"$checkout/crates/svemu/src/main.rt"
    holds "a build that fails" sh -c "[ $status -eq 1 ] && tail -n 1 '$scratch/errors' | grep -q \"^svemu: the program couldn't be built; see .*build.log$\""
}

# Whether a start asks for the kit, for this reason.
asks_where() {
    bare ./svemu a
    holds "$1" sh -c "[ $status -eq 1 ] && grep -qF '$2; a build needs the Rattle kit' '$scratch/errors'"
}

start_refusals() {
    kept=$scratch/dist
    rm -rf "$kept"
    cp -R "$checkout/dist" "$kept"
    printf '#!/bin/sh\nexit 3\n' | gzip -9n >"$checkout/dist/svemu-x86_64.gz"
    bare ./svemu --clean
    asks_where "a program that isn't what the text tells of" 'dist/svemu.txt tells of'
    printf '#!/bin/sh\nexit 3\n' >"$scratch/stand-in"
    sed "s/^x86_64 .*/x86_64 $(sha256sum <"$scratch/stand-in" | cut -d ' ' -f 1) 17/" "$kept/svemu.txt" >"$checkout/dist/svemu.txt"
    asks_where "a program that doesn't run" 'run on this machine'
    sed '/^x86_64 /d' "$kept/svemu.txt" >"$checkout/dist/svemu.txt"
    asks_where "a machine that dist/ has no program for" "svemu: dist/ has no program for $(uname -sm)"
    rm -r "$checkout/dist"
    asks_where "no dist/" 'svemu: there is no dist/svemu.txt'
    # Another program of the name of the kit's is never asked to build.
    mkdir -p "$scratch/another"
    printf '#!/bin/sh\necho "rt 5.0.3, a tracker"\n' >"$scratch/another/rt"
    chmod +x "$scratch/another/rt"
    bare env PATH="$scratch/another:$no_kit" ./svemu a
    ended_like "another rt" 1 "svemu: there is no dist/svemu.txt; a build needs the Rattle kit, whose command rt isn't in the PATH .*"
    cp -R "$kept" "$checkout/dist"
    cd "$checkout" || exit 1
    run env -u SVEMU PATH="$no_kit" XDG_CACHE_HOME=/dev/null ./svemu a
    cd "$top" || exit 1
    ended_like "no cache folder" 1 'svemu: nothing can be kept in /dev/null/svemu/[^/]+ \(XDG_CACHE_HOME names another folder\)'
}

release_checks() {
    with_kit tools/release --check
    ended "dist/ of these sources" 0 'dist/ is of these sources\n' ''
    with_kit sh -c 'rt ci >ci; tools/release --compare'
    ended "dist/ is what was built" 0 'dist/ has the programs that were built, byte for byte\n' ''
    echo "rattle-kit-1 stand-in" >"$scratch/kit/version"
    echo 0 >"$checkout/cases-end"
    with_kit tools/release --compare
    ended "another kit's does what the cases have" 0 "dist/ is by another kit (rattle-kit-0 stand-in), and does what the stored runs have\n" ''
    holds "by the program of dist/" sh -c "gzip -dc '$checkout/dist/svemu-x86_64.gz' | cmp - '$checkout/cases-of'"
    echo 1 >"$checkout/cases-end"
    with_kit tools/release --compare
    ended "another kit's doesn't" 1 '' "tools/release: the program of dist/, by another kit, doesn't do what the stored runs have\n"
    echo "rattle-kit-0 stand-in" >"$scratch/kit/version"
    echo '# other' >>"$checkout/crates/svemu/out/svemu"
    with_kit tools/release --compare
    holds "dist/ isn't what was built of the same sources" sh -c "[ $status -eq 1 ] && grep -q \"^tools/release: dist/ isn't the program that was built\" '$scratch/errors'"
    echo second >"$checkout/crates/svemu/src/main.rt"
    with_kit tools/release --check
    ended "dist/ of older sources" 3 'dist/ is of older sources; tools/release renews it of what was built\n' ''
    with_kit tools/release --x86-64-only
    ended "no release of a program that is older than its sources" 1 '' "tools/release: crates/svemu/out/svemu is older than its sources: rt ci builds it\n"
    echo first >"$checkout/crates/svemu/src/main.rt"
    cp "$checkout/dist/svemu-x86_64.gz" "$scratch/packed"
    echo other | gzip -9n >"$checkout/dist/svemu-x86_64.gz"
    with_kit tools/release --check
    ended "a program that isn't what the text tells of" 1 '' "tools/release: dist/svemu-x86_64.gz isn't the program that dist/svemu.txt tells of\n"
    cp "$scratch/packed" "$checkout/dist/svemu-x86_64.gz"
}

gate_ends() {
    ! lacks "the gate's script" bash || return 0
    took='rt ci took [0-9.]* minutes of the clock and [0-9.]* minutes of the processors'
    with_kit make -s gate
    sed "s/^$took\$/took/" "$scratch/output" >"$scratch/gate"
    cat >"$scratch/wanted" <<'END'
make gate: every proof, which takes an hour or more where none is kept, and then the tests of make check
rt: low is kept: an earlier run
rt: svemu proved
rt: svemu: its tests proved
2 passed, 0 failed
took
crates proved anew: 1; kept from earlier runs: 1
dist/ has the programs that were built, byte for byte
tools pass
END
    holds "the gate, by make gate" sh -c "[ $status -eq 0 ] && diff '$scratch/gate' '$scratch/wanted'"
    echo 1 >"$scratch/kit/ends"
    with_kit .ci/run
    echo 0 >"$scratch/kit/ends"
    holds "a gate that failed" sh -c "[ $status -eq 1 ] && tail -n 1 '$scratch/output' | grep -q '^crates proved anew: 1'"
    echo second >"$checkout/crates/svemu/src/main.rt"
    with_kit .ci/run
    holds "a gate beside dist/ of older sources" sh -c "[ $status -eq 0 ] && tail -n 2 '$scratch/output' | head -n 1 | grep -q '^dist/ is of older sources'"
    echo first >"$checkout/crates/svemu/src/main.rt"
    printf '#!/bin/sh\n[ "$#" -gt 0 ] || exit 121\n' >"$scratch/stand-in"
    gzip -9nc "$scratch/stand-in" >"$checkout/dist/svemu-x86_64.gz"
    cp "$checkout/dist/svemu.txt" "$scratch/text"
    sed "s/^x86_64 .*/x86_64 $(sha256sum <"$scratch/stand-in" | cut -d ' ' -f 1) $(wc -c <"$scratch/stand-in" | tr -d ' ')/" "$scratch/text" >"$checkout/dist/svemu.txt"
    with_kit .ci/run
    holds "a gate beside other bytes of the same sources" sh -c "[ $status -eq 1 ] && grep -q \"^tools/release: dist/ isn't the program\" '$scratch/errors'"
    cp "$scratch/packed" "$checkout/dist/svemu-x86_64.gz"
    cp "$scratch/text" "$checkout/dist/svemu.txt"
    rm -r "$checkout/crates/svemu/out"
    wants="make gate: the proofs want the Rattle kit, whose command rt isn't in the PATH (README says what it is); make check has the tests that need none"
    bare make -s gate
    holds "no gate without the kit" \
        sh -c '[ "$1" -eq 2 ] && [ ! -s "$2" ] && [ "$(head -n 1 "$3")" = "$4" ]' sh "$status" "$scratch/output" "$scratch/errors" "$wants"
    # Another program of that name is no kit.
    bare env PATH="$scratch/another:$no_kit" make -s gate
    holds "no gate by another rt" \
        sh -c '[ "$1" -eq 2 ] && [ ! -s "$2" ] && [ "$(head -n 1 "$3")" = "$4" ]' sh "$status" "$scratch/output" "$scratch/errors" "$wants"
    bare env PATH="$scratch/another:$no_kit" make -s check
    ended "make check beside another rt" 0 \
        'make check: the tests that need no proof, part by part, in some eight minutes (make gate proves everything, too)\ntools pass\n' ''
    with_kit make -s check
    ended "make check with the kit" 0 \
        'make check: the tests that need no proof, part by part, in some eight minutes (make gate proves everything, too)\ntools pass\n' ''
}

install_without_kit() {
    bare make -s install DESTDIR="$scratch/stage" PREFIX=/opt/it
    holds "make install without the kit" [ "$status" -eq 0 ]
    run "$scratch/stage/opt/it/bin/svemu" a b
    ended "what was installed runs" 5 'first: a b\n' ''
    bare ./svemu --version
    holds "it has the version" cmp "$scratch/output" "$scratch/stage/opt/it/lib/svemu/version"
    ln -s "$scratch/stage/opt/it/bin/svemu" "$scratch/a link to it"
    run "$scratch/a link to it" --version
    holds "and tells it by a link" cmp "$scratch/output" "$scratch/stage/opt/it/lib/svemu/version"
    run "$scratch/stage/opt/it/bin/svemu" --help
    holds "help, without the checkout's words" sh -c "grep -q '^usage: svemu run' '$scratch/output' && ! grep -q checkout '$scratch/output'"
    bare make -s uninstall DESTDIR="$scratch/stage" PREFIX=/opt/it
    holds "make uninstall leaves nothing" sh -c "[ $status -eq 0 ] && [ -z \"\$(find '$scratch/stage' ! -type d)\" ] && [ ! -d '$scratch/stage/opt/it/lib/svemu' ] &&
        [ ! -d '$scratch/stage/opt/it/share/svemu' ]"
}
