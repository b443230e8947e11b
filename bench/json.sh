#!/usr/bin/env bash
# Times `json -a` beside `match -a` on the same logs, by the processor's time of the whole program. The grok_tool of another
# version can be given after -o, to measure both in the same run.
#
#   bench/json.sh [-o GROK_TOOL] [LINES]        100000 lines if no number is given
set -euo pipefail
source "$(dirname "$0")/common.sh"
programs=("$(program grok_tool)")
if [ "${1:-}" = -o ]; then
    programs+=("$2")
    shift 2
fi
lines=${1:-100000}
rounds=30

# The milliseconds of the fastest run of a command, by program and command.
declare -A best=()

# Runs both commands of all programs in turn on a log, and prints a row for each program: `compare PATTERN LOG`.
compare() {
    local program command
    mapfile -t words <"$root/bench/patterns/$1"
    "$root/bench/make_log" "$2" "$lines" >"$room/log"
    best=()
    for ((round = 0; round < rounds; round++)); do
        for program in "${programs[@]}"; do
            for command in match json; do
                processor_time "$room/log" "$program" "$command" -a "${words[@]}"
                best["$program $command"]=$(least "${best[$program $command]:-}" "$took")
            done
        done
    done
    for program in "${programs[@]}"; do
        echo "| \`$1\` on $2 | $program | $(ratio "${best[$program match]}" 1000 3) | $(ratio "${best[$program json]}" 1000 3)" \
            "| $(ratio "${best[$program json]}" "${best[$program match]}") |"
    done
}

echo "$lines lines of each log, the fastest of $rounds runs; $(machine)."
echo
echo "| Pattern and log | program | \`match -a\`, s | \`json -a\`, s | ratio |"
echo "|---|---|---|---|---|"
for run in 'apache apache' 'combined apache' 'syslog syslog' 'apache other' 'apache cut' 'syslog other'; do
    compare ${run% *} ${run#* }
done
