#!/usr/bin/env bash
# run.sh PROGRAM [ARGUMENT...]
#
# Gives every NAME.csv beside this script to PROGRAM as standard input and
# compares what it writes, byte for byte, with NAME.want. One line for each
# failure: the name and the first line that differs. The last line is
# `N passed, M failed`; the exit status is 0 only if none failed.
#
# A run that takes more than 60 seconds has failed (LIMIT=n for n seconds; this
# needs the command timeout). PROGRAM's exit status and standard error are not
# judged: the rules speak of the records alone.

set -u

if [ $# -eq 0 ]; then
    echo "usage: run.sh PROGRAM [ARGUMENT...]" >&2
    exit 2
fi
if ! command -v -- "$1" >/dev/null; then
    echo "run.sh: no program $1" >&2
    exit 2
fi

here=$(cd -- "$(dirname -- "${BASH_SOURCE[0]}")" && pwd) || exit 2
limit=${LIMIT:-60}
guard=()
if command -v timeout >/dev/null; then
    guard=(timeout "$limit")
fi
got=$(mktemp) || exit 2
trap 'rm -f -- "$got"' EXIT

# next_line FD: sets line to the next line, its line end made visible.
next_line() {
    local text status
    IFS= read -r text <&"$1"
    status=$?
    text=${text//$'\r'/\\r}
    if [ "$status" -eq 0 ]; then
        line="$text\\n"
    elif [ -n "$text" ]; then
        line=$text
    else
        line="(end)"
    fi
}

# first_difference WANT GOT: says where the two files differ first.
first_difference() {
    local number=0 want have
    exec 3<"$1" 4<"$2"
    while :; do
        number=$((number + 1))
        next_line 3
        want=$line
        next_line 4
        have=$line
        if [ "$want" != "$have" ]; then
            echo "line $number: wanted ${want:0:60} got ${have:0:60}"
            break
        fi
        if [ "$want" = "(end)" ]; then
            echo "the bytes differ"
            break
        fi
    done
    exec 3<&- 4<&-
}

passed=0
failed=0
for csv in "$here"/*.csv; do
    [ -e "$csv" ] || continue
    name=${csv##*/}
    name=${name%.csv}
    want=$here/$name.want
    if [ ! -e "$want" ]; then
        echo "$name: no $name.want"
        failed=$((failed + 1))
        continue
    fi
    ${guard[@]+"${guard[@]}"} "$@" <"$csv" >"$got" 2>/dev/null
    status=$?
    if [ "$status" -eq 124 ] && [ ${#guard[@]} -gt 0 ]; then
        echo "$name: no end after $limit seconds"
        failed=$((failed + 1))
    elif cmp -s -- "$want" "$got"; then
        passed=$((passed + 1))
    else
        echo "$name: $(first_difference "$want" "$got")"
        failed=$((failed + 1))
    fi
done

echo "$passed passed, $failed failed"
[ "$failed" -eq 0 ] && [ "$passed" -gt 0 ]
