#!/usr/bin/env bash
# Measures how long `grok_calls compiled` takes to find the first fault, and how much memory, if an alias ends in a number: then the
# uses of base keys are counted to find a clash. The definitions are the costly ones of docs/HOSTILE.md, in three sizes.
# The grok_calls of another version can be given, to measure both in the same run.
#
#   bench/clashes.sh [GROK_CALLS]
set -euo pipefail
source "$(dirname "$0")/common.sh"
programs=("$(program grok_calls)" "$@")
sizes=(25 50 100)
shapes=(doubled shared all-numbered pairs circle)
declare -A meaning=(
    [doubled]='a definition with many aliases, one of them numbered, doubled 70 times'
    [shared]='many definitions that each use one with many aliases, one of them numbered'
    [all-numbered]='the same, with every alias numbered'
    [pairs]='many keys that each clash, the last of them first'
    [circle]='a circle with many inline definitions, one alias of which is numbered'
)

# Prints a definition B with COUNT aliases, of which the first is numbered: `aliases COUNT`.
aliases() {
    printf 'B=%%{A:x[1]}'
    seq -f '%%{A:key%g}' "$1" | tr -d '\n'
    echo
}

# Prints the definitions of a shape in about SIZE kB, one on a line: `library SHAPE SIZE`.
library() {
    local bytes=$(($2 * 1000)) level
    echo 'A=a'
    case $1 in
    doubled)
        aliases $((bytes / 12))
        echo 'D0=%{B}'
        for ((level = 1; level <= 70; level++)); do
            echo "D$level=%{D$((level - 1))}%{D$((level - 1))}"
        done
        echo 'TOP=%{D70}'
        ;;
    shared)
        aliases $((bytes / 2 / 12))
        seq -f 'N%g=%%{B}' $((bytes / 2 / 18))
        seq -f '%%{N%g}' $((bytes / 2 / 18)) | tr -d '\n' | sed 's/^/TOP=/'
        echo
        ;;
    all-numbered)
        printf 'B='
        seq -f '%%{A:key%g[1000000]}' $((bytes / 2 / 21)) | tr -d '\n'
        echo
        seq -f 'N%g=%%{B}' $((bytes / 2 / 18))
        seq -f '%%{N%g}' $((bytes / 2 / 18)) | tr -d '\n' | sed 's/^/TOP=/'
        echo
        ;;
    pairs)
        printf 'T='
        seq -f '%%{A:k%g[1]}' $((bytes / 26)) | tr -d '\n'
        printf '\nU='
        seq -f '%%{A:k%g}' $((bytes / 26)) -1 1 | tr -d '\n'
        printf '\nTOP=%%{T}%%{U}%%{U}\n'
        ;;
    circle)
        printf 'TOP=%%{A:x[1]}'
        seq -f '%%{W%g=a}' $((bytes / 11)) | tr -d '\n'
        echo '%{TOP}'
        ;;
    esac
}

echo "$(machine)."
echo
echo '| Definitions | kB | program | seconds | MB | Answer |'
echo '|---|---|---|---|---|---|'
for shape in "${shapes[@]}"; do
    for size in "${sizes[@]}"; do
        library "$shape" "$size" >"$room/library"
        for program in "${programs[@]}"; do
            timeout 600 /usr/bin/time -f '%e %M' -o "$room/cost" "$program" compiled regex '%{TOP}%{missing}' \
                <"$room/library" >"$room/answer" 2>"$room/complaint" || true
            read -r seconds kilobytes < <(tail -n 1 "$room/cost")
            echo "| ${meaning[$shape]} | $size | $program | $seconds | $((kilobytes / 1024)) | $(head -c 80 "$room/answer") |"
        done
    done
done
