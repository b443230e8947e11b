#!/usr/bin/env bash
# Times what `groklog` does with a log beside `grok_tool json -a` on the same lines, by the processor's time of the whole program. The
# groklog of another version can be given after -o, to measure both in the same run.
#
#   bench/tasks.sh [-o GROKLOG] [LINES]        200000 lines if no number is given
set -euo pipefail
source "$(dirname "$0")/common.sh"
grok_tool=$(program grok_tool)
programs=("$(program groklog)")
if [ "${1:-}" = -o ]; then
    programs+=("$2")
    shift 2
fi
lines=${1:-200000}
rounds=5

# The options of each task. KEY is a key of the pattern.
tasks=('' '--typed' '--logstash' '--csv' '--count KEY' '--show --color always' '--show --color never' '--why')

# The milliseconds of the fastest run, by program and task.
declare -A best=()

# Runs a task of a program on the log: `run_task PROGRAM TASK`. A run that took over 3 seconds isn't repeated.
run_task() {
    local options
    [ "${best[$1 $2]:-0}" -le 3000 ] || return 0
    read -ra options <<<"${2/KEY/$key}"
    processor_time "$room/log" "$1" -d "$room/definitions" "${options[@]}" "${words[0]}"
    best["$1 $2"]=$(least "${best[$1 $2]:-}" "$took")
}

# Runs all tasks of all programs in turn on a log, and prints a row for each program: `compare PATTERN LOG KEY`.
compare() {
    local key=$3 round program task row
    mapfile -t words <"$root/bench/patterns/$1"
    printf '%s\n' "${words[@]:1}" >"$room/definitions"
    "$root/bench/make_log" "$2" "$lines" >"$room/log"
    best=()
    for ((round = 0; round < rounds; round++)); do
        processor_time "$room/log" "$grok_tool" json -a "${words[@]}"
        best[json]=$(least "${best[json]:-}" "$took")
        for program in "${programs[@]}"; do
            for task in "${tasks[@]}"; do
                run_task "$program" "$task"
            done
        done
    done
    for program in "${programs[@]}"; do
        row="| \`$1\` on $2 | $program | $(ratio "${best[json]}" 1000) |"
        for task in "${tasks[@]}"; do
            row+=" $(ratio "${best[$program $task]}" "${best[json]}") |"
        done
        echo "$row"
    done
}

echo "$lines lines of each log, the fastest of $rounds runs; $(machine)."
echo
row='| Pattern and log | program | `json -a`, s |' rule='|---|---|---|'
for task in "${tasks[@]}"; do
    row+=" ${task:-JSON} |" rule+='---|'
done
printf '%s\n%s\n' "$row" "$rule"
for run in 'apache apache response' 'syslog syslog program' 'apache cut response' 'apache other response'; do
    # shellcheck disable=SC2086 # The parts are words.
    compare $run
done
