# Tests of the example listings by the commands asm, dis and dbg: made, run, shown, assembled again from what is shown,
# and debugged.

# A listing that has nothing but the code of an image, as `dis` shows it: the texts of its lines.
listing_of() {
    "$SVEMU" dis "$1" | cut -d ' ' -f 3-
}

listings() {
    for example in lane_sum greeting; do
        run "$SVEMU" asm "examples/$example.s"
        cp "$scratch/output" "$scratch/$example.elf"
        holds "$example is assembled" [ "$status" -eq 0 ]
        for vl in 128 384 2048; do
            run "$runner" --vl "$vl" "$scratch/$example.elf"
            case $example in
                greeting) ended "greeting at $vl" 0 'hello, lanes\n' '' ;;
                *) ended "lane_sum at $vl" 44 '' '' ;;
            esac
        done
        listing_of "$scratch/$example.elf" >"$scratch/again.s"
        run "$SVEMU" asm "$scratch/again.s"
        cp "$scratch/output" "$scratch/again.elf"
        listing_of "$scratch/again.elf" >"$scratch/again"
        holds "what dis shows of $example is assembled to the same code" cmp "$scratch/again.s" "$scratch/again"
    done
    run "$SVEMU" dbg "$scratch/lane_sum.elf" examples/lane_sum.script --vl 256 --budget 100
    holds "a session over lane_sum ends" [ "$status" -eq 0 ]
    holds "it shows what it should" cmp "$scratch/output" examples/lane_sum.session
    holds "and writes no errors" [ ! -s "$scratch/errors" ]
    run "$SVEMU" asm examples/overrun.s
    cp "$scratch/output" "$scratch/overrun.elf"
    run "$SVEMU" dbg "$scratch/overrun.elf" examples/overrun.script --vl 256 --budget 1000
    holds "a session over overrun that goes back ends" [ "$status" -eq 0 ]
    holds "it shows what it should" cmp "$scratch/output" examples/overrun.session
    holds "and writes no errors" [ ! -s "$scratch/errors" ]
    # The manual has the scripts and the sessions too, behind four blanks.
    for example in lane_sum overrun; do
        sed 's/^/    /' "examples/$example.script" "examples/$example.session" >"$scratch/shown"
        awk 'FNR == NR { wanted[++count] = $0; next }
             at < count && $0 == wanted[at + 1] { at++ }
             END { exit at != count }' "$scratch/shown" docs/MANUAL.md
        holds "the script and the session of $example in the manual" [ "$?" -eq 0 ]
    done
}

listing_refusals() {
    printf 'svc #0\nadd x0, x1\n' >"$scratch/bad.s"
    run "$SVEMU" asm "$scratch/bad.s"
    ended "a listing is refused" 122 '' 'refused listing BadOperands at line 2\n'
    printf 'step 1\nhop\n' >"$scratch/bad.script"
    run "$SVEMU" dbg crates/svemu/data/exit7.elf "$scratch/bad.script" --vl 128 --budget 10
    ended "a script is refused" 122 '' 'refused script UnknownCommand at line 2\n'
    run "$SVEMU" dis "$scratch/bad.s"
    ended "no image to show" 122 '' 'refused image TooShort\n'
    run "$SVEMU" asm "$scratch/nosuch.s"
    ended "no listing" 126 '' ''
    run "$SVEMU" asm --vl 128 examples/lane_sum.s
    ended "an option that asm doesn't have" 121 '' 'refused words UnknownOption at 1\n'
}

# The texts of words of every line of both tables, but for those with a target, through GNU's assembler: to the words
# that `asm` makes.
gnu_texts() {
    ! lacks "texts through GNU's assembler" aarch64-linux-gnu-as aarch64-linux-gnu-objcopy || return 0
    awk -F '\t' '/^= / { is_on = $0 == "= words" } is_on && NF == 3 && $2 != "-" { print ".word 0x" $1 }' \
        crates/command_cases/stdin >"$scratch/words.s"
    "$SVEMU" asm "$scratch/words.s" >"$scratch/words.elf"
    # A target is the last token, with no `#` before it.
    "$SVEMU" dis "$scratch/words.elf" | cut -d ' ' -f 3- | awk '$NF !~ /^0x/ || /#0x[0-9a-f]*$/' >"$scratch/texts.s"
    "$SVEMU" asm "$scratch/texts.s" >"$scratch/texts.elf"
    "$SVEMU" dis "$scratch/texts.elf" | cut -d ' ' -f 2 >"$scratch/ours"
    aarch64-linux-gnu-as -march=armv8.1-a+sve -o "$scratch/texts.o" "$scratch/texts.s" 2>"$scratch/said"
    aarch64-linux-gnu-objcopy -O binary -j .text "$scratch/texts.o" "$scratch/texts.bin"
    od -An -v -t x4 -w4 "$scratch/texts.bin" | tr -d ' ' >"$scratch/theirs"
    holds "$(wc -l <"$scratch/ours") texts through GNU's assembler" cmp "$scratch/ours" "$scratch/theirs"
}
