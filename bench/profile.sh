#!/usr/bin/env bash
# Prints which share of the instructions of `match -a` the engine, our crates, and the rest take. valgrind counts them, so
# the load of the machine doesn't matter. Only a function's own instructions count for it, and not those of its calls.
#
#   bench/profile.sh [LINES]        20000 lines of each log if no number is given
set -euo pipefail
source "$(dirname "$0")/common.sh"
lines=${1:-20000}
grok_tool=$(program grok_tool)

# The instructions of each function, the most first: `count INPUT WORD..`.
count() {
    local input=$1
    shift
    valgrind --tool=callgrind --callgrind-out-file="$room/profile" "$@" <"$input" >/dev/null 2>"$room/complaint"
    callgrind_annotate --threshold=100 "$room/profile" | sed -n 's/^ *\([0-9,]*\) *([ 0-9.]*%) *[^:]*:\([^ ]*\).*/\1 \2/p' | tr -d ,
}

# Prints the instructions a line, and the shares of the engine, the library, the program and the rest.
by_owner() {
    awk -v lines="$lines" '
        { total += $1 }
        $2 ~ /^regex/ { engine += $1; next }
        $2 ~ /^grok_(tool|commands|sizes|words|lines)/ { tool += $1; next }
        $2 ~ /^grok/ { library += $1; next }
        { rest += $1 }
        END {
            printf "%d | %.0f %% | %.0f %% | %.0f %% | %.0f %%", total / lines, 100 * engine / total, 100 * library / total, \
                100 * tool / total, 100 * rest / total
        }'
}

echo '| Pattern and log | Instructions a line | `regex` | `grok` | `grok_tool` | std and C library |'
echo '|---|---|---|---|---|---|'
for run in 'apache apache' 'syslog syslog' 'apache cut' 'apache other'; do
    read -r pattern kind <<<"$run"
    mapfile -t words <"$root/bench/patterns/$pattern"
    "$root/bench/make_log" "$kind" "$lines" >"$room/log"
    echo "| \`$pattern\` on $kind | $(count "$room/log" "$grok_tool" match -a "${words[@]}" | by_owner) |"
done
