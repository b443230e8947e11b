#!/usr/bin/env bash
# Runs all benchmarks but profile.sh. Each prints its tables in markdown. They need a machine that does nothing else. There each
# takes under two minutes.
#
#   bench/all.sh
set -euo pipefail
here=$(dirname "$0")
echo '## Lines against patterns'
echo
"$here/match.sh"
echo
echo '## `json` beside `match`'
echo
"$here/json.sh"
echo
echo '## Memory over long logs'
echo
"$here/flat.sh"
echo
echo '## Tasks of groklog'
echo
"$here/tasks.sh"
echo
echo '## Searching for a clash'
echo
"$here/clashes.sh"
echo
echo '## Reports of groklog'
echo
"$here/costs.py"
