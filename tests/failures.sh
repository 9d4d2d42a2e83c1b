#!/bin/sh
# The failures that beginners meet, as programs, and the line that svemu-tool says of each.
#
#   tests/failures.sh PROGRAM     PROGRAM is svemu-tool; the programs of tests/failures are built by aarch64-linux-gnu-gcc
set -u

case ${1-} in
    --help | -h)
        sed -n '2,4s/^# \{0,1\}//p' "$0"
        exit 0
        ;;
    '' | --*)
        echo "failures.sh: name the program svemu-tool, as tests/failures.sh crates/svemu_tool/out/svemu_tool" >&2
        exit 2
        ;;
esac
tool=$1
if ! [ -x "$tool" ]; then
    echo "failures.sh: $tool is no program" >&2
    exit 2
fi
gcc=$(command -v aarch64-linux-gnu-gcc) || {
    echo "failures.sh: skipped, without aarch64-linux-gnu-gcc"
    exit 0
}
top=$(cd "$(dirname "$0")/.." && pwd)
scratch=$(mktemp -d) || exit 2
trap 'rm -rf "$scratch"' EXIT
bad=0
count=0

# Builds a program of tests/failures by further flags: bare NAME FLAG ..
bare() {
    name=$1
    shift
    "$gcc" -O1 -march=armv8-a+sve -nostdlib -ffreestanding -fno-stack-protector -Wl,--build-id=none "$@" \
        -o "$scratch/$name" "$top/tests/failures/$name.c" || exit 2
}

# Builds a program of tests/failures under a name of its own, by flags: built NAME SOURCE FLAG ..
built() {
    name=$1
    source=${2%_below}
    source=${source%_one}
    shift 2
    "$gcc" -O1 -march=armv8-a+sve -nostdlib -ffreestanding -fno-stack-protector -Wl,--build-id=none -static -no-pie \
        -fno-pic "$@" -o "$scratch/$name" "$top/tests/failures/$source.c" || exit 2
}

# Compares a status and what is said with both: fails STATUS LINE BOTH
fails() {
    [ "$1 $2" = "$3" ] || {
        bad=$((bad + 1))
        echo "failures.sh: $1, and it says: $2" >&2
    }
}

# Runs a file with a budget and compares the status and the line: says NAME STATUS PATTERN
says() {
    count=$((count + 1))
    line=$(SVEMU_VL='' SVEMU_BUDGET='' SVEMU_PAGES='' "$tool" run --budget 1000000 "$scratch/$1" 2>&1 </dev/null)
    status=$?
    if [ "$status" -ne "$2" ] || ! printf '%s\n' "$line" | grep -qx -- "$3"; then
        bad=$((bad + 1))
        printf 'failures.sh: %s: status %s, and it says: %s\n' "$1" "$status" "$line" >&2
    fi
}

for name in float simd stack null_read null_write null_call behind sp spin no_exit trap plain; do
    case $name in
        simd) bare simd -static -no-pie -O3 -march=armv8-a ;;
        *) bare "$name" -static -no-pie -fno-pic ;;
    esac
done
says plain 0 ''
says float 132 'svemu: undefined word 0x[0-9a-f]* (floating point: build without it, or see TESTING_YOUR_CODE) at 0x[0-9a-f]*, dot_product.* (called from main+0x[0-9a-f]*), after [0-9]* steps'
says simd 132 'svemu: undefined word 0x[0-9a-f]* (Advanced SIMD: build with the flags of TESTING_YOUR_CODE; for builtins, intrinsics and assembly see What leaves the table) at 0x[0-9a-f]*, fill.*, after [0-9]* steps'
says stack 139 'svemu: write to 0x7fffffe[0-9a-f]*, [0-9]* bytes below the stack, at 0x[0-9a-f]*, deeper+0x[0-9a-f]* (called from deeper+0x[0-9a-f]*), after [0-9]* steps'
says null_read 139 'svemu: read from 0x8, in page 0 (a null pointer), at 0x[0-9a-f]*, main+0x[0-9a-f]* .*'
says null_write 139 'svemu: write to 0x0, in page 0 (a null pointer), at 0x[0-9a-f]*, main+0x[0-9a-f]* .*'
says null_call 139 'svemu: fetch from 0x0: a call of a null pointer from main+0x[0-9a-f]* (x30), after [0-9]* steps'
for at in 'guard -DBELOW=0' 'guard_one -DBELOW=0 -DBEHIND=100' 'guard_below -DBELOW=1' 'mapping -DPLACE=16384+6' 'mapping_below -DPLACE=-7' break clone; do
    # shellcheck disable=SC2086 # words
    built ${at%% *} $at
done
says guard 139 'svemu: read from 0x[0-9a-f]*, 3 bytes behind the end of a guarded buffer of 100 bytes, at 0x[0-9a-f]*, main+0x[0-9a-f]* .*'
says guard_one 139 'svemu: read from 0x[0-9a-f]*, 1 byte behind the end of a guarded buffer of 100 bytes, at 0x[0-9a-f]*, main+0x[0-9a-f]* .*'
says guard_below 139 'svemu: read from 0x[0-9a-f]*, 5 bytes below a guarded buffer of 100 bytes, at 0x[0-9a-f]*, main+0x[0-9a-f]* .*'
says break 139 'svemu: write to 0x[0-9a-f]*, .*, 10 bytes behind the break, at 0x[0-9a-f]*, main+0x[0-9a-f]* .*'
says mapping 139 'svemu: write to 0x[0-9a-f]*, 7 bytes behind a mapping, at 0x[0-9a-f]*, main+0x[0-9a-f]* .*'
says mapping_below 139 'svemu: write to 0x[0-9a-f]*, 7 bytes below a mapping, at 0x[0-9a-f]*, main+0x[0-9a-f]* .*'
says clone 123 'svemu: x8 names the call clone, which is refused here: --threads SCHEDULE runs a program with threads'
says behind 139 'svemu: write to 0x[0-9a-f]*.*, 4901 bytes behind the end of table, at 0x[0-9a-f]*, main+0x[0-9a-f]* .*'
says sp 135 'svemu: an access by SP, which is no multiple of 16, at 0x[0-9a-f]*, main+0x4 .*'
says spin 123 'svemu: 1000000 steps are spent in spin.* (SVEMU_BUDGET gives more)'
says no_exit 132 'svemu: undefined word 0x00000000 (permanently undefined: the program ran into zeros or data.*'
says trap 133 'svemu: the instruction BRK (a trap that the program has in itself) at 0x[0-9a-f]*, main+0x[0-9a-f]* .*'

# files that are no static program of this machine
printf 'int main(void) { return 0; }\n' >"$scratch/host.c"
"$gcc" -O1 -ffreestanding -c -o "$scratch/object" "$top/tests/failures/plain.c" || exit 2
says object 122 'svemu: .*/object is a relocatable file: not linked'
"$gcc" -O1 -nostdlib -ffreestanding -pie -fpie -o "$scratch/pie" "$top/tests/failures/plain.c" || exit 2
says pie 122 'svemu: .*/pie is position independent: add -static -no-pie'
"$gcc" -O1 -nostdlib -ffreestanding -shared -fpic -o "$scratch/library" "$top/tests/failures/plain.c" || exit 2
says library 122 'svemu: .*/library is position independent (add -static -no-pie) or a shared library'
"$gcc" -mbig-endian -O1 -nostdlib -static -ffreestanding -no-pie -o "$scratch/big" "$top/tests/failures/plain.c" || exit 2
says big 122 'svemu: .*/big is big endian'
if "$gcc" -no-pie -o "$scratch/dynamic" "$scratch/host.c" 2>/dev/null; then
    says dynamic 122 'svemu: .*/dynamic is a dynamic program: link it with -static'
fi
printf '#include <stdio.h>\nint main(void) { printf("%%d\\n", 3); return 0; }\n' >"$scratch/printf.c"
if "$gcc" -O1 -static -no-pie -o "$scratch/printf" "$scratch/printf.c" 2>/dev/null; then
    says printf 132 'svemu: undefined word 0x[0-9a-f]* (Advanced SIMD: build with the flags of TESTING_YOUR_CODE; for builtins, intrinsics and assembly see What leaves the table) at 0x[0-9a-f]*, .* (called from .*), after [0-9]* steps'
fi
if [ "$(uname -m)" = x86_64 ] && cc -o "$scratch/x86" "$scratch/host.c" 2>/dev/null; then
    says x86 122 "svemu: .*/x86 is an x86-64 program: built by the host's compiler?"
fi
printf '#!/bin/sh\n' >"$scratch/script"
says script 122 'svemu: .*/script is no ELF file'
says none 126 "svemu: .*/none isn't there, or can't be read"
says . 126 "svemu: .*/. isn't there, or can't be read"

# one step, and no more
line=$("$tool" run --budget 1 "$scratch/plain" 2>&1)
[ "$line" = "svemu: 1 step is spent in _start+0x4 (SVEMU_BUDGET gives more)" ] || {
    bad=$((bad + 1))
    echo "failures.sh: one step: $line" >&2
}

# values and words
line=$(SVEMU_VL=100 "$tool" run "$scratch/plain" 2>&1)
[ "$line" = "svemu: SVEMU_VL is '100': it may be a multiple of 128 from 128 to 2048" ] || {
    bad=$((bad + 1))
    echo "failures.sh: a bad SVEMU_VL: $line" >&2
}
line=$("$tool" run --pages 0 "$scratch/plain" 2>&1)
[ "$line" = "svemu: --pages is '0': it may be a number from 1 to 1048576" ] || {
    bad=$((bad + 1))
    echo "failures.sh: a bad --pages: $line" >&2
}
line=$("$tool" run --foo "$scratch/plain" 2>&1)
[ "$line" = "svemu: --foo is no option of run: see svemu-tool --help" ] || {
    bad=$((bad + 1))
    echo "failures.sh: an unknown option: $line" >&2
}
line=$("$tool" run --quiet "$scratch/trap" 2>&1)
[ "$?" -eq 133 ] && [ -z "$line" ] || {
    bad=$((bad + 1))
    echo "failures.sh: --quiet: $line" >&2
}

# threads under a schedule, and the report in a file
line=$("$tool" run --vl 128 --budget 10000 --threads "$top/examples/single_steps.schedule" --registers "$scratch/registers" "$top/examples/lost_update.elf" 2>&1)
fails "$?" "$line" "0 number 4"
head -n 1 "$scratch/registers" | grep -qx 'exit 0 after [0-9]* steps' && grep -qx 'thread 1' "$scratch/registers" || {
    bad=$((bad + 1))
    echo "failures.sh: the registers of threads" >&2
}
built stuck stuck
line=$("$tool" run --threads "$top/examples/whole_turns.schedule" "$scratch/stuck" 2>&1)
fails "$?" "$line" "119 svemu: no thread is ready, since each waits for another, after 14 steps"
line=$("$tool" run --threads "$scratch/script" "$scratch/plain" 2>&1)
fails "$?" "$line" "122 svemu: $scratch/script is no schedule: no turn at line 0"
line=$("$tool" run --threads "$scratch/none" "$scratch/plain" 2>&1)
fails "$?" "$line" "126 svemu: $scratch/none isn't there, or can't be read"
line=$("$tool" run --registers "$scratch/none/registers" "$scratch/plain" 2>&1)
fails "$?" "$line" "125 svemu: $scratch/none/registers can't be written"
dd if=/dev/zero of="$scratch/long" bs=1 count=1 seek=67108864 2>/dev/null
line=$("$tool" run "$scratch/long" 2>&1)
fails "$?" "$line" "127 svemu: $scratch/long has more than 67,108,864 bytes"

# what failed of the input and of the output
line=$("$tool" run "$(printf '\377')" 2>&1)
fails "$?" "$line" "118 svemu: a word of the command line isn't text"
built reads reads
line=$("$tool" run "$scratch/reads" 2>&1 <"$scratch")
fails "$?" "$line" "124 svemu: the input can't be read"
line=$("$tool" run --quiet "$scratch/reads" 2>&1 <"$scratch")
fails "$?" "$line" "124 "
if [ -c /dev/full ]; then
    line=$("$tool" run "$scratch/reads" 2>&1 >/dev/full </dev/null)
    fails "$?" "$line" "125 svemu: the output can't be written"
fi
echo "failures.sh: $count programs, $bad wrong"
[ "$bad" -eq 0 ]
