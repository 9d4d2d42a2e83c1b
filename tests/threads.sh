# shellcheck shell=sh
# shellcheck disable=SC2016,SC2154 # shells that are called expand them; tools.sh sets the others
# Tests of programs of several threads: the example, the schedules that svemu-schedules tries, and the cases of
# contexts; tools.sh reads it.

schedules=$top/tools/svemu-schedules

# Runs the example of a folder under a schedule of examples/, with these arguments.
scheduled() {
    image=$1/lost_update.elf
    schedule=$top/examples/$2.schedule
    shift 2
    run "$SVEMU" threads "$image" "$schedule" --vl 128 --budget 9999 "$@"
}

# Whether the last run wrote a number that is, or isn't, 8, and showed two contexts.
counted() {
    holds "$1" [ "$status" -eq 0 ]
    holds "$1: a number" sh -c '[ "$(wc -l <"$1")" -eq 1 ] && grep -qx "number [0-8]" "$1"' sh "$scratch/output"
    holds "$1: number $2 8" sh -c 'test "$(sed "s/number //" "$1")" "$2" 8' sh "$scratch/output" "$2"
    holds "$1: two contexts" [ "$(grep -cx 'thread [01]' "$scratch/errors")" -eq 2 ]
}

# The example of a folder: one schedule shows its bug, and another one hides it; with an argument it has none.
threaded() {
    scheduled "$1" whole_turns
    counted "$2 whole turns" -eq
    scheduled "$1" single_steps
    counted "$2 single steps" -lt
    for schedule in whole_turns single_steps; do
        scheduled "$1" "$schedule" -- once
        counted "$2 at once under $schedule" -eq
    done
}

tried_schedules() {
    run "$schedules" --keep "$scratch/kept" 40 examples/lost_update.elf
    holds "schedules that show the bug" [ "$status" -eq 1 ]
    cp "$scratch/output" "$scratch/tried"
    holds "their lines" awk -v kept="$scratch/kept/shortest.schedule" '
        NR == 1 { bad = !/^schedule 1 exit 0 after [0-9]+ steps out 9 same$/; next }
        last { bad = 1 }
        /^shortest / {
            bad = bad || !/^shortest [0-9]+ turns exit 0 after [0-9]+ steps out 9 parts at 7$/
            turns = $2
            next
        }
        /^=> / {
            bad = bad || !/^=> 40 schedules, [0-9]+ part; the shortest is kept as [^ ]+, and --trace shows its run$/
            bad = bad || index($0, "kept as " kept ",") == 0
            part = $4
            last = 1
            next
        }
        turns { bad = bad || !/^[01] [1-9][0-9]*$/; given++; next }
        !/^schedule [0-9]+ exit 0 after [0-9]+ steps out 9 parts at 7$/ || $2 < 2 || $2 > 40 { bad = 1 }
        { ways++ }
        END { exit bad || !last || ways < 1 || ways > 5 || part < ways || turns < 2 || given != turns }' "$scratch/tried"
    first=$(sed -n '2s/^schedule \([0-9]*\) .*/\1/p' "$scratch/tried")
    holds "three schedules are kept" \
        [ "$(cd "$scratch/kept" && echo *)" = "1.schedule $first.schedule shortest.schedule" ]
    run "$SVEMU" threads examples/lost_update.elf "$scratch/kept/1.schedule" --vl 512 --budget 9999
    counted "the first schedule that was kept" -eq
    run "$SVEMU" threads examples/lost_update.elf "$scratch/kept/$first.schedule" --vl 512 --budget 9999
    counted "the schedule that was kept since it parts" -lt
    shortest_is_short
    run "$schedules" 40 examples/lost_update.elf
    sed '/^=> /d' "$scratch/tried" >"$scratch/before"
    holds "the same schedules for the same seed" sh -c 'sed "/^=> /d" "$1" | cmp - "$2"' sh \
        "$scratch/output" "$scratch/before"
    run "$schedules" --seed 2 40 examples/lost_update.elf
    holds "other ones for another seed" sh -c '! cmp -s "$1" "$2"' sh "$scratch/output" "$scratch/tried"
    run "$schedules" --vl 128 40 examples/lost_update.elf once
    holds "no schedule loses what is added at once" [ "$status" -eq 0 ]
    holds "its lines" awk '
        NR == 1 { bad = !/^schedule 1 exit 0 after [0-9]+ steps out 9 same$/; next }
        NR == 2 { bad = bad || $0 != "=> 40 schedules, 0 part" }
        END { exit bad || NR != 2 }' "$scratch/output"
}

# The schedule that was kept as the shortest parts, and it does no more without one of its turns.
shortest_is_short() {
    run "$SVEMU" threads examples/lost_update.elf "$scratch/kept/shortest.schedule" --vl 512 --budget 9999
    counted "the shortest schedule" -lt
    grep -v '^#' "$scratch/kept/shortest.schedule" >"$scratch/turns"
    holds "the shortest is shown" sh -c 'sed "1,/^shortest/d; /^=>/d" "$1" | cmp - "$2"' sh "$scratch/tried" "$scratch/turns"
    turn=$(wc -l <"$scratch/turns")
    while [ "$turn" -gt 0 ]; do
        sed "${turn}d" "$scratch/turns" >"$scratch/fewer"
        run "$SVEMU" threads examples/lost_update.elf "$scratch/fewer" --vl 512 --budget 9999
        counted "the shortest schedule without turn $turn" -eq
        turn=$((turn - 1))
    done
}

# Each structure without a lock, in its right form and in its broken one, of the images of a folder.
structures() {
    while IFS='|' read -r structure broken wanted; do
        for form in '' "$broken"; do
            # shellcheck disable=SC2086 # no word or one
            run "$SVEMU" threads "$1/$structure.elf" examples/whole_turns.schedule --vl 128 --budget 9999 -- $form
            holds "$2 $structure $form under whole turns" sh -c '[ "$1" -eq 0 ] && [ "$(cat "$2")" = "$3" ]' sh \
                "$status" "$scratch/output" "$wanted"
        done
    done <<'END'
treiber_stack|uncounted|items that aren't in one place 0
ticket_lock|torn|number 2
seqlock|once|the reader's numbers are the same
END
}

# All schedules with at most two switches: the broken forms are found, by a schedule with as few as it takes; the right
# ones agree. Of lost_update the number is known: thread 0 may be left before each of its 4 additions, the load of the
# word of thread 1 and its call that waits, and thread 1 before each of its 4 additions and its call that leaves; so 6
# schedules have one switch, and 6 times 5 have two.
bounded_schedules() {
    while read -r structure broken switches ending; do
        rm -rf "$scratch/kept"
        # shellcheck disable=SC2046 # no word or one
        run "$schedules" --vl 128 --keep "$scratch/kept" --bound 2 "examples/$structure.elf" \
            $([ "$broken" = - ] || echo "$broken")
        holds "$structure $broken is found" awk -v ending="$ending" -v switches="$switches" '
            NR == 1 { bad = !/^0 switches: 1 schedule, exit 0 after [0-9]+ steps out [0-9]+$/; next }
            /^[12] switch(es)?: [0-9]+ schedules$/ { levels++; next }
            /^switch after [0-9]+ steps: thread [01] at 0x[0-9a-f]+ .*, thread [01] goes on$/ { lines++; next }
            /^shortest / { turns = $2; bad = bad || index($0, ending) == 0; next }
            last { bad = 1 }
            turns && /^[0-9]+ [0-9]+$/ { given++; next }
            /^=> a schedule with [12] switch(es)? parts; the shortest is kept as / { last = $5; next }
            { bad = 1 }
            END { exit bad || last != switches || levels != switches || lines != switches || turns < 2 || given != turns
            }' "$scratch/output"
        holds "$structure $broken: the status" [ "$status" -eq 1 ]
        cp "$scratch/output" "$scratch/tried"
        # shellcheck disable=SC2046 # no word or one
        run "$SVEMU" threads "examples/$structure.elf" "$scratch/kept/shortest.schedule" --vl 128 --budget 20000 \
            $([ "$broken" = - ] || echo "-- $broken")
        holds "$structure $broken: the schedule that was kept" sh -c 'grep -qx "$(sed -n \
            "s/^shortest [0-9]* turns \(.* steps\) out .*/\1/p" "$1")" "$2"' sh "$scratch/tried" "$scratch/errors"
    done <<'END'
lost_update - 1 parts at 7
treiber_stack uncounted 1 parts at 31
ticket_lock torn 1 stuck after
seqlock once 2 parts at 21
END
    run "$schedules" --vl 128 --bound 2 examples/lost_update.elf once
    ended "all schedules of what is added at once" 0 "0 switches: 1 schedule, exit 0 after 205 steps out 9
1 switch: 6 schedules
2 switches: 30 schedules
=> all 37 schedules with at most 2 switches agree
" ''
    for structure in treiber_stack ticket_lock seqlock; do
        run "$schedules" --vl 128 --bound 2 "examples/$structure.elf"
        holds "$structure agrees" sh -c '[ "$1" -eq 0 ] && tail -n 1 "$2" |
            grep -qx "=> all [0-9]* schedules with at most 2 switches agree"' sh "$status" "$scratch/output"
    done
    run "$schedules" --bound 2 examples/strlen.elf
    holds "a program of one thread has one schedule" sh -c '[ "$1" -eq 0 ] && tail -n 1 "$2" |
        grep -qx "=> the one schedule with at most 2 switches agrees: the program starts no thread"' sh "$status" "$scratch/output"
    run "$schedules" --bound 2 examples/prefix_sum.elf
    ended "one that takes more steps" 2 '' \
        "svemu-schedules: without a switch the program doesn't end within 20000 steps (--budget takes more); it starts no thread up to there\n"
    run "$schedules" 40 examples/strlen.elf
    holds "one of one thread by chance" awk '
        NR == 1 { bad = !/^schedule 1 exit 0 after [0-9]+ steps out 51 same$/; next }
        { bad = bad || $0 != "=> 40 schedules, 0 part: the program starts no thread" }
        END { exit bad || NR != 2 }' "$scratch/output"
    run "$schedules" --budget 10 40 examples/strlen.elf
    ended "one that starts none in its budget" 0 \
        'schedule 1 spent after 10 steps out 0 same\n=> 40 schedules, 0 part: the program starts no thread in these steps\n' ''
}

# Where a thread waits or leaves and more than one could go on, each is tried: main waits for the first of two others,
# and either of these may be the first to leave its number; where the first one has, main or the second goes on.
bounded_choices() {
    ! lacks "schedules of three threads" aarch64-linux-gnu-gcc || return 0
    mkdir -p "$scratch/three"
    cat >"$scratch/three/three.c" <<'TEXT'
#include "threads.h"
static int order[2], at;
static void note(void *with) { order[__atomic_fetch_add(&at, 1, __ATOMIC_RELAXED)] = (int)(long)with; }
int main(int count, char **words)
{
    static struct thread a, b;
    (void)words;
    if (start_thread(&a, note, (void *)1) < 0 || start_thread(&b, note, (void *)2) < 0)
        return 1;
    join_thread(&a);
    join_thread(&b);
    put_line("order", count > 1 ? order[0] * 10 + order[1] : order[0] + order[1]);
    return 0;
}
TEXT
    holds "a program of three threads is built" make -f "$top/examples/Makefile" "$scratch/three/three.elf" \
        INSIDE='-march=armv8.1-a+sve'
    run "$schedules" --vl 128 --bound 0 "$scratch/three/three.elf"
    holds "each choice agrees" sh -c '[ "$1" -eq 0 ] && tail -n 1 "$2" |
        grep -qx "=> all 3 schedules with at most 0 switches agree"' sh "$status" "$scratch/output"
    run "$schedules" --vl 128 --bound 0 "$scratch/three/three.elf" ordered
    holds "a choice parts" sh -c '[ "$1" -eq 1 ] && grep -q "^shortest [0-9]* turns exit 0 .* parts at 6$" "$2" &&
        ! grep -q "^switch after" "$2"' sh "$status" "$scratch/output"
}

# The shortest schedule's run as an interleaving: the two accesses of a thread between which the other one wrote, what is
# said of them, and that what is said is so of the steps that are shown; and places by symbols and lines.
traced_schedules() {
    while read -r structure broken thread what; do
        # shellcheck disable=SC2046 # no word or one
        run "$schedules" --vl 128 --bound 2 --trace "examples/$structure.elf" $([ "$broken" = - ] || echo "$broken")
        holds "$structure $broken is traced" awk -v thread="$thread" -v what="$what" '
            /^its run from the first start of a thread on, behind [0-9]+ steps/ { shown = 1; next }
            !shown { next }
            /^\(1 and 1\): / {
                said = "^\\(1 and 1\\): thread " thread " " what "; between them thread " 1 - thread " writes .*, last in step " write "$"
                bad = bad || $0 !~ said || index($0, "in step " first " and ") == 0 || index($0, "in step " second ";") == 0
                lines++
                next
            }
            /^=> / { bad = bad || /--trace/; last = NR; next }
            /^the run ends by / { bad = bad || !/^the run ends by (exit 0|stuck) after [0-9]+ steps$/; ends++; next }
            / step +thread +place +instruction +shared memory$/ { next }
            { bad = bad || !/^(\(1|!1|1\))? +([0-9]+ +[01] +0x[0-9a-f]+ +[a-z].* (reads|writes|starts|waits|wakes|leaves|goes on).*|[01] +\.\. [0-9]+ steps?)$/ }
            /^\(1 / { first = $2; bad = bad || $3 != thread; marks++ }
            /^!1 / { write = $2; bad = bad || $3 == thread || !/writes /; marks++ }
            /^1\) / { second = $2; bad = bad || $3 != thread; marks++ }
            END { exit bad || marks != 3 || lines != 1 || ends != 1 || last != NR || !(first < write && write < second) }
            ' "$scratch/output"
    done <<'END'
lost_update - 0 reads 0x401380 in step [0-9]+ and writes it in step [0-9]+
treiber_stack uncounted 0 reads 0x40145c in step [0-9]+ and reads and writes 0x401440 in step [0-9]+
ticket_lock torn 0 reads 0x4013e4 in step [0-9]+ and writes it in step [0-9]+
seqlock once 1 reads 0x4013c4 in step [0-9]+ and reads 0x4013c8 in step [0-9]+
END
    run "$schedules" --vl 128 --trace 40 examples/lost_update.elf
    holds "a schedule by chance is traced" sh -c '[ "$1" -eq 1 ] && grep -q "^1) .* writes 0x[0-9]* to 0x401380$" "$2" &&
        tail -n 1 "$2" | grep -Eqx "=> 40 schedules, [0-9]+ part; the shortest is above"' sh "$status" "$scratch/output"
    run "$schedules" --vl 128 --trace 40 examples/lost_update.elf once
    holds "where none parts, none is traced" sh -c '[ "$1" -eq 0 ] && [ "$(wc -l <"$2")" -eq 2 ]' sh "$status" "$scratch/output"
    holds "what each instruction loads and stores" python3 tests/accesses.py "$built"
    ! lacks "a trace with symbols" aarch64-linux-gnu-gcc || return 0
    mkdir -p "$scratch/lines"
    cp examples/lost_update.c "$scratch/lines"
    holds "a program with symbols" make -f "$top/examples/Makefile" "$scratch/lines/lost_update.elf" DEBUG=-g \
        SMALL= INSIDE='-march=armv8.1-a+sve'
    run "$schedules" --vl 128 --bound 1 --trace "$scratch/lines/lost_update.elf"
    holds "places by symbols and lines" sh -c '
        grep -Eq "^1\) +[0-9]+ +0 +plainly\+0x[0-9a-f]+ \(lost_update\.c:[0-9]+\) +str w0, \[.*\] +writes 0x1 to number$" "$1"' sh \
        "$scratch/output"
}

# A progress line on a terminal, and the end by Ctrl-C.
schedules_on_a_terminal() {
    cat >"$scratch/slow" <<'TEXT'
#!/bin/sh
sleep 0.3
printf 'exit 0 after 1 steps\nthread 0\nx0 0000000000000000\n' >&2
TEXT
    chmod +x "$scratch/slow"
    cat >"$scratch/terminal.py" <<'TEXT'
import os, pty, subprocess, sys
mine, theirs = pty.openpty()
done = subprocess.run(sys.argv[1:], stdin=subprocess.DEVNULL, stdout=subprocess.PIPE, stderr=theirs)
os.close(theirs)
shown = b""
try:
    while more := os.read(mine, 4096):
        shown += more
except OSError:
    pass
told = b"\r\x1b[K5 of 7 schedules" in shown and shown.endswith(b"\r\x1b[K")
sys.exit(0 if told and done.stdout.endswith(b"=> 7 schedules, 0 part\n") else f"{done.stdout} {shown}")
TEXT
    holds "a line says how far it is" env SVEMU="$scratch/slow" python3 "$scratch/terminal.py" "$schedules" 7 p
    run env SVEMU="$scratch/slow" "$schedules" 7 p
    ended "no such line without a terminal" 0 'schedule 1 exit 0 after 1 steps out 0 same\n=> 7 schedules, 0 part\n' ''
    # Ctrl-C is the signal INT, which may be ignored where these tests are started from. It comes in the second run.
    cat >"$scratch/until_ctrl_c" <<'TEXT'
#!/bin/sh
[ ! -e "$ONCE" ] || { kill -INT $PPID; sleep 1; }
: >"$ONCE"
printf 'exit 0 after 1 steps\nthread 0\nx0 0000000000000000\n' >&2
TEXT
    chmod +x "$scratch/until_ctrl_c"
    run env SVEMU="$scratch/until_ctrl_c" ONCE="$scratch/once" python3 -c '
import os, signal, sys
signal.signal(signal.SIGINT, signal.SIG_DFL)
os.execv(sys.argv[1], sys.argv[1:])' "$schedules" --keep "$scratch/until" 1000 p
    ended "ended by Ctrl-C" 130 'schedule 1 exit 0 after 1 steps out 0 same\n' \
        "svemu-schedules: ended by Ctrl-C; $scratch/until/1.schedule is kept\n"
}

# What a stand-in for svemu says: the endings that a run may have, behind bytes that look like them.
schedules_and_stand_ins() {
    cat >"$scratch/by_schedule" <<'TEXT'
#!/bin/sh
# number of the call
n=$(($(cat "$COUNT") + 1))
echo $n >"$COUNT"
turns=$(wc -l <"$3")
[ "$1 $2" = "threads p" ] && shift 3 && [ "$*" = "--budget 7 --pages 300 --vl 256 -- --x " ] || exit 9
registers='thread 0\nx0 0000000000000000\n'
# Behind the seven schedules, what has three turns or more parts.
[ $n -lt 8 ] || { [ "$turns" -lt 3 ] || n=2; }
case $n in
    2) printf 'abd'; printf "stuck after 3 steps\n${registers}own exit 1 after 5 steps\n$registers" >&2 ;;
    3) printf 'abc'; printf "stuck after 9 steps\n$registers" >&2 ;;
    4) printf 'abc'; printf "trap undefined 0x0000000000400000 at 0x0000000000400000 after 0 steps\n$registers" >&2 ;;
    5) printf 'ab'; printf "exit 1 after 5 steps\n$registers" >&2 ;;
    6) printf 'abcd'; printf "spent after 7 steps\n$registers" >&2 ;;
    *) printf 'abc'; printf "ownexit 1 after 4 steps\n$registers" >&2 ;;
esac
exit 1
TEXT
    chmod +x "$scratch/by_schedule"
    echo 0 >"$scratch/count"
    run env COUNT="$scratch/count" SVEMU="$scratch/by_schedule" "$schedules" --budget 7 --pages 300 --vl 256 7 p --x ''
    sed '1,/^shortest 3 turns exit 1 after 5 steps out 3 parts at 2$/d' "$scratch/output" >"$scratch/turns"
    holds "turns that aren't needed are left out" [ "$(grep -c '^[0-9][0-9]* [0-9][0-9]*$' "$scratch/turns")" -eq 3 ]
    sed '/^shortest/,$d' "$scratch/output" >"$scratch/before" && cp "$scratch/before" "$scratch/output"
    ended "endings and outputs that part" 1 "schedule 1 exit 1 after 4 steps out 3 same
schedule 2 exit 1 after 5 steps out 3 parts at 2
schedule 3 stuck after 9 steps out 3 same
schedule 4 trap undefined 0x0000000000400000 at 0x0000000000400000 after 0 steps out 3 same
schedule 5 exit 1 after 5 steps out 2 parts at 2
schedule 6 spent after 7 steps out 4 parts at 3
" ''
    cat >"$scratch/of_schedules" <<'TEXT'
#!/bin/sh
cat "$3" >>"$TEXTS"
printf 'exit 0 after 1 steps\nthread 0\nx0 0000000000000000\n' >&2
TEXT
    chmod +x "$scratch/of_schedules"
    run env TEXTS="$scratch/texts" SVEMU="$scratch/of_schedules" "$schedules" 30 p
    ended "no schedule that parts" 0 'schedule 1 exit 0 after 1 steps out 0 same\n=> 30 schedules, 0 part\n' ''
    holds "turns of schedules" awk '
        NF != 2 || $1 !~ /^[0-9]+$/ || $1 > 63 || $2 !~ /^[1-9][0-9]*$/ { bad = 1 }
        END { exit bad || NR < 500 }' "$scratch/texts"
    sed -n '1p;64p' "$scratch/texts" >"$scratch/two"
    holds "the first has long ones for each" sh -c 'printf "0 1000\n63 1000\n" | cmp - "$1"' sh "$scratch/two"
}

schedules_refused() {
    run "$schedules"
    ended "schedules of nothing" 2 '' 'svemu-schedules: no program is named (--help shows how)\n'
    run "$schedules" 5
    ended "schedules of no program" 2 '' 'svemu-schedules: no program is named (--help shows how)\n'
    run "$schedules" five "$probe"
    ended "no number of schedules" 2 '' 'svemu-schedules: N wants a number from 1 to 4294967295, not five\n'
    run "$schedules" --seed -1 5 "$probe"
    ended "no number for a seed" 2 '' \
        'svemu-schedules: --seed wants a number from 0 to 18446744073709551615, not -1\n'
    run "$schedules" --vl 100 5 "$probe"
    ended "schedules at no length" 2 '' 'svemu-schedules: --vl wants a multiple of 128 from 128 to 2048, not 100\n'
    run env SVEMU_VL=100 "$schedules" 5 "$probe"
    ended "schedules at no length of the variable" 2 \
        '' 'svemu-schedules: SVEMU_VL wants a multiple of 128 from 128 to 2048, not 100\n'
    run "$schedules" --seed=2 5 "$probe"
    ended "an option and its value as one word" 2 '' 'svemu-schedules: --seed and its value are two words: --seed 2\n'
    run "$schedules" 5 "$scratch/nosuch"
    ended "schedules of a missing program" 2 '' "svemu-schedules: $scratch/nosuch couldn't be read\n"
    echo text >"$scratch/text"
    run "$schedules" 5 "$scratch/text"
    ended "schedules of what is no program" 2 '' "svemu-schedules: svemu-tool says: $scratch/text is no ELF file\n"
    run "$schedules" --bound 2 "$scratch/text"
    ended "all schedules of it" 2 '' "svemu-schedules: svemu-tool says: $scratch/text is no ELF file\n"
    run "$schedules" --keep "$scratch/text/folder" 5 examples/lost_update.elf
    holds "a folder that can't be" [ "$status" -eq 2 ]
    run sh -c '"$1" 5 "$2" >/dev/full' sh "$schedules" examples/lost_update.elf
    ended "lines that can't be written" 2 '' \
        "svemu-schedules: the lines couldn't be written: No space left on device\n"
    run "$schedules" --bound 17 "$probe"
    ended "too many switches" 2 '' 'svemu-schedules: --bound wants a number from 0 to 16, not 17\n'
    run "$schedules" --bound 2
    ended "all schedules of no program" 2 '' 'svemu-schedules: no program is named (--help shows how)\n'
    run "$schedules" --bound 2 --seed 3 "$probe"
    ended "a seed for all schedules" 2 '' 'svemu-schedules: --seed is for schedules by chance, and --bound tries all\n'
    run "$schedules" --bound 2 --budget 65537 "$probe"
    ended "too many steps to follow" 2 '' 'svemu-schedules: --bound wants a budget of at most 65536 steps, not 65537\n'
    run env SVEMU_BUDGET=65537 "$schedules" --bound 2 "$probe"
    ended "too many by the variable" 2 \
        '' 'svemu-schedules: --bound wants a budget of at most 65536 steps, not 65537 of SVEMU_BUDGET\n'
    run "$schedules" --bound 2 --budget 100 examples/lost_update.elf
    ended "a program that doesn't end" 2 '' \
        "svemu-schedules: without a switch the program doesn't end within 100 steps (--budget takes more)\n"
    run "$schedules" --bound 2 "$scratch/nosuch"
    ended "all schedules of a missing program" 2 '' "svemu-schedules: $scratch/nosuch couldn't be read\n"
    run "$schedules" --help
    holds "the help of schedules" grep -q '^usage: svemu-schedules' "$scratch/output"
}

threads() {
    threaded examples "checked in:"
    structures examples "checked in:"
    ! lacks "schedules and the cases of contexts" python3 || return 0
    tried_schedules
    bounded_schedules
    bounded_choices
    traced_schedules
    schedules_on_a_terminal
    schedules_and_stand_ins
    schedules_refused
    holds "the cases of contexts" python3 tests/threads.py --check crates/command_cases
}
