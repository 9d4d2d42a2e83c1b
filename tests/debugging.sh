#!/bin/sh
# A session of `svemu-tool debug` at a terminal, by tmux: the prompt, an empty line that repeats, a run that stops by
# itself, a long way back that is told of before, Ctrl-C, which ends the session and leaves the terminal as it was, and
# Ctrl-D, which ends it with status 0. Then one of tools/svemu-debug: the lines of the source, and where rlwrap is
# installed TAB, which completes a symbol, and the line before.
#
#   tests/debugging.sh TOOL
#
# Without tmux it is skipped. The last line is 'N passed, M failed'.
set -u

tool=$1
here=$(CDPATH= cd -- "$(dirname -- "$0")" && pwd)
command -v tmux >/dev/null || {
    echo "debugging.sh: skipped, without tmux"
    exit 0
}
server=svemu-debugging-$$
passed=0
failed=0
scratch=$(mktemp -d) || exit 1
trap 'tmux -L "$server" kill-server 2>/dev/null; rm -rf "$scratch"' EXIT
trap 'exit 1' HUP INT TERM

send() {
    tmux -L "$server" send-keys -t debug "$@"
}

# A line of the screen fits a pattern, at the latest after twenty seconds.
shows() {
    tries=0
    while [ "$tries" -lt 100 ]; do
        if tmux -L "$server" capture-pane -p -S -200 -t debug | grep -q -- "$1"; then
            passed=$((passed + 1))
            return
        fi
        tries=$((tries + 1))
        sleep 0.2
    done
    failed=$((failed + 1))
    echo "no line fits '$1':"
    tmux -L "$server" capture-pane -p -S -200 -t debug
}

tmux -L "$server" new-session -d -s debug -x 120 -y 50 -c "$here/.." 'PS1="shell> " sh'
send "$tool debug $here/debugged/no_end.elf --vl 128; echo status \$?" Enter
shows '^(svemu) *$'
send 'stepi 2' Enter
shows '^step 2 '
send '' Enter
shows '^step 4 '
send 'set slice 5000' Enter
send 'continue' Enter
shows '^stopped by itself'
shows '^step 5004 '
send '' Enter
shows '^step 10004 '
send 'goto 12000000' Enter
shows '^step 12000000 '
send 'last-write _start 4' Enter
shows '^looks through up to 12000000 steps \.\.$'
shows '^no step before this one wrote to '
send C-d
shows '^status 0'
# Ctrl-C while it runs: the terminal is as it was before.
breaks_off() {
    send "clear; stty -g >$scratch/before; $* $here/debugged/no_end.elf --vl 128" Enter
    shows '^step 0 '
    send 'set slice 4000000000' Enter
    send 'continue' Enter
    sleep 1
    send C-c
    # the terminal itself shows ^C before it, on the same line or on one of its own
    shows '^\(\^C\)*shell> *$'
    send "stty -g >$scratch/behind; cmp $scratch/before $scratch/behind && echo the terminal answers" Enter
    shows '^the terminal answers'
}
breaks_off "$tool debug"
if command -v llvm-dwarfdump >/dev/null || command -v objdump >/dev/null; then
    send "export SVEMU_TOOL=$tool RLWRAP_HOME=$scratch" Enter
    send "clear; tools/svemu-debug tests/debugged/steps.elf --vl 128; echo status \$?" Enter
    shows '^step 0 '
    if command -v rlwrap >/dev/null; then
        send 'until beg' Tab
        shows 'until begin'
        send Enter
    else
        send 'until begin' Enter
    fi
    shows '^step 3 .*<begin>'
    shows '^  tests/debugged/steps\.c:19  {'
    send 'next' Enter
    shows '^  tests/debugged/steps\.c:20 '
    send 'list steps.c:6' Enter
    shows '^   6      int wide'
    if command -v rlwrap >/dev/null; then
        send Up Up Enter
    else
        send 'next' Enter
    fi
    shows '^  tests/debugged/steps\.c:21 '
    send C-d
    shows '^status 0'
    breaks_off tools/svemu-debug
fi
echo "$passed passed, $failed failed"
[ "$failed" -eq 0 ]
