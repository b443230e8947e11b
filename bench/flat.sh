#!/usr/bin/env bash
# Measures the greatest memory that `match -a` and `json -a` take for ever longer logs. It must not grow with the lines.
#
#   bench/flat.sh [LINES..]       10000 100000 1000000 if no number is given
set -euo pipefail
source "$(dirname "$0")/common.sh"
grok_tool=$(program grok_tool)
[ $# -gt 0 ] || set -- 10000 100000 1000000

mapfile -t words <"$root/bench/patterns/apache"
echo "The greatest resident set, \`apache\` on its own log; $(machine)."
echo
echo "| Lines | \`match -a\`, KiB | \`json -a\`, KiB |"
echo "|---|---|---|"
for lines in "$@"; do
    "$root/bench/make_log" apache "$lines" >"$room/log"
    echo "| $lines | $(peak "$room/log" "$grok_tool" match -a "${words[@]}") | $(peak "$room/log" "$grok_tool" json -a "${words[@]}") |"
done
