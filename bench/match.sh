#!/usr/bin/env bash
# Measures how many lines a second `grok_tool` and `groklog` answer, and other tools that do the same work, on the same lines
# in one run.
# All output is written to a file. The tools run in turn, three times each, but only once if a run takes over 3 seconds.
# The fastest run counts.
#
#   bench/match.sh [LINES]        100000 lines if no number is given
set -euo pipefail
source "$(dirname "$0")/common.sh"
lines=${1:-100000}
rounds=3
grok_tool=$(program grok_tool)
groklog=$(program groklog)

# Reads a pattern of bench/patterns: the pattern, the definition words, which groklog reads from a file, the plain
# expression, and its groups.
read_pattern() {
    mapfile -t words <"$root/bench/patterns/$1"
    printf '%s\n' "${words[@]:1}" >"$room/groklog_definitions"
    regex=$("$root/bench/plain_regex" "$root/bench/patterns/$1")
    groups=$(grep -oP '\(\?P<\K\w+' <<<"$regex" | sed 's/.*/&=$&/' | tr '\n' ' ')
}

# Writes the settings under which Debian's `grok` writes the pairs of each line of a log as JSON: `write_settings LOG`.
write_settings() {
    local pattern=${words[0]//\"/\\\"}
    printf '%s\n' "${words[@]:1}" | sed 's/=/ /' >"$room/definitions"
    cat >"$room/settings" <<SETTINGS
program {
  load-patterns: "$room/definitions"
  exec "cat $1"
  match {
    pattern: "$pattern"
    reaction: "%{@JSON}"
    shell: "stdout"
  }
}
SETTINGS
}

# Prints what `match -a` prints, but matches with perl's own engine.
perl_groups='BEGIN { $regex = qr/$ENV{REGEX}/ } chomp;
    if (/$regex/) { print map({ "$_=$+{$_}\n" } sort keys %+), "\n" } else { print "no match\n\n" }'

run_tool() {
    local input=$1 output=$2
    case $3 in
    'match') time_once "$input" "$output" "$grok_tool" match "${words[@]}" ;;
    'match -a') time_once "$input" "$output" "$grok_tool" match -a "${words[@]}" ;;
    'json') time_once "$input" "$output" "$grok_tool" json "${words[@]}" ;;
    'json -a') time_once "$input" "$output" "$grok_tool" json -a "${words[@]}" ;;
    'groklog') time_once "$input" "$output" "$groklog" -d "$room/groklog_definitions" "${words[0]}" ;;
    'perl, named groups') REGEX=$regex time_once "$input" "$output" perl -ne "$perl_groups" ;;
    'grep -P -c') time_once "$input" "$output" grep -P -c -- "$regex" ;;
    'rg -or') time_once "$input" "$output" rg --no-config -N -or "$groups" -- "$regex" ;;
    "Debian's grok") time_once "$input" "$output" grok -f "$room/settings" ;;
    'rg -c') time_once "$input" "$output" rg --no-config -c -- "$regex" ;;
    esac
}

tools=('match' 'match -a' 'json' 'json -a' 'groklog' 'perl, named groups' 'grep -P -c')
if command -v rg >/dev/null; then
    tools+=('rg -or' 'rg -c')
fi
if command -v grok >/dev/null; then
    tools+=("Debian's grok")
fi

# The microseconds of the fastest run, by the pattern, the log and the tool.
declare -A best=()

# Runs all tools with a pattern on a log, and compares what perl prints with our output: `compare PATTERN LOG`.
compare() {
    local pattern=$1 kind=$2 tool round at log=$room/log
    read_pattern "$pattern"
    "$root/bench/make_log" "$kind" "$lines" >"$log"
    write_settings "$log"
    for ((round = 0; round < rounds; round++)); do
        for tool in "${tools[@]}"; do
            at="$pattern $kind $tool"
            [ "${best[$at]:-0}" -le 3000000 ] || continue
            run_tool "$log" "$room/out" "$tool"
            [ -n "${best[$at]:-}" ] && [ "${best[$at]}" -le "$took" ] || best[$at]=$took
            case $tool in
            'match -a') mv "$room/out" "$room/ours" ;;
            'perl, named groups') mv "$room/out" "$room/perls" ;;
            esac
        done
    done
    if cmp -s "$room/ours" "$room/perls"; then
        same["$pattern $kind"]='the same bytes'
    else
        same["$pattern $kind"]='**other bytes**'
    fi
}

# How many times as fast as another tool a tool is, or `-` if the other one wasn't run: `faster PATTERN-AND-LOG TOOL OTHER`.
faster() {
    if [ -n "${best[$1 $3]:-}" ]; then
        ratio "${best[$1 $3]}" "${best[$1 $2]}"
    else
        echo -
    fi
}

# Lines a second, a row for each tool.
print_speeds() {
    local run tool row
    row='| Lines a second |' rule='|---|'
    for run in "${runs[@]}"; do
        row+=" \`${run% *}\` on ${run#* } |" rule+='---|'
    done
    printf '%s\n%s\n' "$row" "$rule"
    for tool in "${tools[@]}"; do
        row="| \`$tool\` |"
        for run in "${runs[@]}"; do
            row+=" $(ratio "$lines" "$(ratio "${best[$run $tool]}" 1000000 6)" 0) |"
        done
        echo "$row"
    done
}

# Prints a value, the goal, and whether it is met: `goal VALUE least BOUND` or `goal VALUE most BOUND`.
goal() {
    awk -v value="$1" -v side="$2" -v bound="$3" 'BEGIN {
        is_met = side == "least" ? value + 0 >= bound : value + 0 <= bound
        print value == "-" ? "not measured" : value " (at " side " " bound ": " (is_met ? "met" : "**missed**") ")" }'
}

# Prints the goals of each run.
print_goals() {
    local run least
    echo "| Pattern and log | \`match -a\` to perl | \`match -a\` to \`rg -c\` | \`json -a\` to \`match -a\` |" \
        "time of \`groklog\` to \`json -a\` | perl prints |"
    echo "|---|---|---|---|---|---|"
    for run in "${runs[@]}"; do
        least=8
        [[ $run == *other || $run == *cut ]] && least=30
        echo "| \`${run% *}\` on ${run#* } | $(goal "$(faster "$run" 'match -a' 'perl, named groups')" least "$least")" \
            "| $(goal "$(faster "$run" 'match -a' 'rg -c')" least 1)" \
            "| $(goal "$(faster "$run" 'json -a' 'match -a')" least 0.5)" \
            "| $(goal "$(faster "$run" 'json -a' 'groklog')" most 1.15) | ${same[$run]} |"
    done
}

declare -A same=()
runs=('apache apache' 'syslog syslog' 'apache other' 'apache cut' 'syslog other')
began=$(machine)
for run in "${runs[@]}"; do
    compare ${run% *} ${run#* }
done
echo "$lines lines of each log, the fastest of $rounds runs; $began, at the end $(cut -d' ' -f1-3 /proc/loadavg)."
command -v rg >/dev/null || echo "ripgrep isn't installed: its rows are left out."
command -v grok >/dev/null || echo "Debian's grok isn't installed: its row is left out."
echo
print_speeds
echo
print_goals
