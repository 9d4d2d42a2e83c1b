#!/bin/sh
# Proves the crates that other programs can use alone, each in an empty folder with what crates.txt says that it stands
# on, and nothing else. It needs the kit; tests/tools.sh doesn't run it, only its copying.
set -u

usage() {
    cat <<'END'
usage: sh tests/alone.sh [--copy FOLDER] [CRATE ..]

Copies each CRATE, with the crates that crates.txt says that it and these stand on, into an empty folder of its own, and
runs `rt ci` there. Without a CRATE these are lane_pack, lane_kernels, lane_permute, pred_bits and frame_arena. Where
there is no `rt` in the PATH it says so, and proves nothing. With --copy the folders are made in FOLDER, which must not
be there yet, and nothing is proved.

status: 0 where each is proved, or copied, or there is no rt; 1 where one isn't; 2 for a line that isn't accepted
END
}

to=
case ${1-} in
    --help)
        usage
        exit 0
        ;;
    --copy)
        to=${2-}
        if [ -z "$to" ] || [ -e "$to" ]; then
            echo "alone.sh: --copy wants a folder that isn't there yet" >&2
            exit 2
        fi
        case $to in
            /*) ;;
            *) to=$(pwd)/$to ;;
        esac
        shift 2
        ;;
    -*)
        echo "alone.sh: there is no option $1 (--help lists them)" >&2
        exit 2
        ;;
esac
cd "$(dirname "$0")/.." || exit 1
[ $# -gt 0 ] || set -- lane_pack lane_kernels lane_permute pred_bits frame_arena
for crate in "$@"; do
    grep -q "^$crate:" crates.txt || {
        echo "alone.sh: crates.txt has no crate $crate" >&2
        exit 2
    }
done
if [ -z "$to" ]; then
    command -v rt >/dev/null || {
        echo "skipped: crates alone: without the kit's rt in the PATH nothing is proved"
        exit 0
    }
    to=$(mktemp -d) || exit 1
    trap 'rm -rf "$to"' EXIT
    trap 'exit 1' HUP INT TERM
    proves=yes
fi

# The lines of crates.txt for a crate and all that it stands on here, lowest first.
lines_of() {
    awk -v crate="$1" '
        /^[a-z0-9_]+:/ { order[++n] = $0; sub(/:.*/, "", $0); line[$0] = order[n] }
        END {
            wanted[crate] = 1
            for (i = n; i > 0; i--) {
                name = order[i]
                sub(/:.*/, "", name)
                if (!(name in wanted)) continue
                m = split(order[i], words, " ")
                for (j = 2; j <= m; j++) if (words[j] in line) wanted[words[j]] = 1
            }
            for (i = 1; i <= n; i++) {
                name = order[i]
                sub(/:.*/, "", name)
                if (name in wanted) print order[i]
            }
        }' crates.txt
}

status=0
for crate in "$@"; do
    mkdir -p "$to/$crate/crates" || exit 1
    lines_of "$crate" >"$to/$crate/crates.txt"
    cp HANDLES "$to/$crate"
    sed 's/:.*//' "$to/$crate/crates.txt" >"$to/names"
    while read -r name; do
        mkdir "$to/$crate/crates/$name" || exit 1
        # But for what was built here.
        for part in "crates/$name"/*; do
            [ "${part##*/}" = out ] || cp -R "$part" "$to/$crate/crates/$name" || exit 1
        done
    done <"$to/names"
    rm "$to/names"
    below=$(sed 's/:.*//' "$to/$crate/crates.txt" | grep -vx "$crate" | tr '\n' ' ')
    told="$crate alone, on ${below:-none }of the crates here"
    [ -n "${proves-}" ] || {
        echo "$told: copied"
        continue
    }
    if (cd "$to/$crate" && rt ci) >"$to/said" 2>&1; then
        echo "$told: $(tail -n 1 "$to/said")"
    else
        status=1
        echo "FAILED: $told:"
        tail -n 20 "$to/said"
    fi
done
exit "$status"
