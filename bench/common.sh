# What the scripts of this folder share. You run them by hand: they aren't part of the tests.
root=$(cd "$(dirname "${BASH_SOURCE[0]}")/.." && pwd)
room=$(mktemp -d)
trap 'rm -rf "$room"' EXIT
export LC_ALL=C

# The path of a program of this repository, which is built first if need be: `program NAME`.
program() {
    "$root/tests/built" "$1"
}

# The microseconds that a command takes from its start to its end, into `took`: `time_once INPUT OUTPUT WORD..`.
# Only grep, rg and Debian's grok may end with status 1: it means that no line matches.
time_once() {
    local input=$1 output=$2 start end status=0
    shift 2
    start=${EPOCHREALTIME/./}
    "$@" <"$input" >"$output" 2>"$room/complaint" || status=$?
    end=${EPOCHREALTIME/./}
    case $1-$status in
    *-0 | grep-1 | rg-1 | grok-1) ;;
    *)
        echo "$1 ended with status $status: $(head -c 300 "$room/complaint")" >&2
        exit 1
        ;;
    esac
    took=$((end - start))
}

# The milliseconds of the processor that a command takes, into `took`: `processor_time INPUT WORD..`.
processor_time() {
    local input=$1 user system TIMEFORMAT='%3U %3S'
    shift
    { time "$@" <"$input" >"$room/out" 2>"$room/complaint"; } 2>"$room/times"
    read -r user system <"$room/times"
    took=$((10#${user/./} + 10#${system/./}))
}

# Prints the smaller of two numbers, or the second one if the first is empty: `least A B`.
least() {
    [ -n "$1" ] && [ "$1" -le "$2" ] && echo "$1" || echo "$2"
}

# Prints the greatest resident set of a command, in KiB: `peak INPUT WORD..`. GNU time takes little memory itself.
peak() {
    local input=$1
    shift
    /usr/bin/time -f %M -o "$room/peak" "$@" <"$input" >/dev/null 2>"$room/complaint"
    cat "$room/peak"
}

# Prints A divided by B, with DIGITS decimal digits, or two if DIGITS isn't given: `ratio A B [DIGITS]`.
ratio() {
    awk -v a="$1" -v b="$2" -v digits="${3:-2}" 'BEGIN { if (b == 0) print "-"; else printf "%.*f", digits, a / b }'
}

# Prints what the machine is and how busy it is.
machine() {
    echo "$(nproc) processors, $(awk -F: '/model name/ { print $2; exit }' /proc/cpuinfo | xargs)," \
        "load $(cut -d' ' -f1-3 /proc/loadavg)"
}
