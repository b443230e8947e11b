#!/usr/bin/env bash
# Measures the first run of bin/grok_tool and then of bin/groklog, each in a fresh clone of a commit and with nothing kept. Several
# commits are built side by side, each on processors of its own.
#
#     bench/first_builds.sh COMMIT=PROCESSORS..
#
# For instance `bench/first_builds.sh dbbf974=0,1 HEAD=2,3`, or `bench/first_builds.sh HEAD=0-3`. It needs root: `rt` begins with
# what checks in other clones left, so an empty folder is mounted over its store, in a mount namespace of the build's own.
# For each program it prints the commit, the processors, and how many minutes and processor seconds the run took.
set -eu
[ $# -gt 0 ] || { sed -n '2,9s/^# \{0,1\}//p' "$0"; exit 2; }
top=$(git -C "$(dirname "$0")" rev-parse --show-toplevel)
store=$(dirname "$(rt doc)")-kept
mkdir -p "$store"
room=$(mktemp -d)
trap 'rm -rf "$room"' EXIT

# Builds both programs: `build COMMIT PROCESSORS FOLDER`.
build() {
    git clone -q "$top" "$3"
    git -C "$3" checkout -q "$(git -C "$top" rev-parse "$1")"
    mkdir "$3.kept"
    mount --bind "$3.kept" "$store"
    cd "$3"
    for program in grok_tool groklog; do
        local TIMEFORMAT='%R %U %S'
        { time taskset -c "$2" "bin/$program" >"$3.output" 2>&1; } 2>"$3.time" || true
        [ -x "crates/$program/out/$program" ] || cat "$3.output"
        awk -v what="$program of $1 on $2" '{ printf "%s: %.1f minutes, %d processor seconds\n", what, $1 / 60, $2 + $3 }' "$3.time"
    done
}

export -f build
export top store
number=0
for each in "$@"; do
    number=$((number + 1))
    unshare -m bash -euc 'build "$@"' build "${each%%=*}" "${each#*=}" "$room/$number" &
done
wait
