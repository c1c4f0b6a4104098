#!/usr/bin/env bash
# What `make run` makes of CARD and FILE: cards in any layout, and everything else as data that is refused. Run at the top of the repository by `make run-test`.
set -eu
work=$(mktemp -d)
trap 'rm -rf "$work"' EXIT
failed=0

# the first line that is written, or the error
expect() { # LINE STATUS WORDS..
    local line=$1 status=$2 told=0
    shift 2
    env -u CARD -u FILE "$@" > "$work/out" 2> "$work/errors" || told=1
    [ -s "$work/out" ] || grep -v '^make' "$work/errors" > "$work/out" || true
    if [ "$told" != "$status" ] || [ "$(head -n 1 "$work/out")" != "$line" ]; then
        echo "run-test: $*: expected '$line'; status $told and '$(head -n 1 "$work/out")'" >&2
        failed=1
    fi
}

run=(make --no-print-directory run)
expect "verdict 0" 0 "${run[@]}"
expect "verdict 0" 0 "${run[@]}" CARD="08 03"
expect "verdict 0" 0 CARD=0803 "${run[@]}"
expect "verdict 9" 1 "${run[@]}" CARD="0802"
expect "verdict 0" 0 "${run[@]}" CARD=$'# TSC-1\n00 # every field is absent'
expect "verdict 6" 1 "${run[@]}" CARD=$'02\n1C'
expect "verdict 1" 1 "${run[@]}" CARD=
expect "verdict 0" 0 "${run[@]}" FILE=cards/p2.hex
expect "verdict 0" 0 "${run[@]}" FILE=cards/eight.hex
expect "CARD: ';' is no hex digit" 1 "${run[@]}" CARD="00; touch $work/run"
expect "CARD: '\$' is no hex digit" 1 "${run[@]}" CARD="\$(shell touch $work/run)"
expect "CARD: '\`' is no hex digit" 1 "${run[@]}" CARD="\`touch $work/run\`"
expect "CARD: an odd number of hex digits, and a byte has two" 1 "${run[@]}" CARD="080"
expect "FILE=$work: no file that can be read" 1 "${run[@]}" FILE="$work"
printf '\0' > "$work/raw"
expect "FILE=$work/raw: a zero byte in it, so it is no text" 1 "${run[@]}" FILE="$work/raw"
expect "CARD and FILE are both given: which card is meant?" 1 "${run[@]}" CARD=00 FILE=cards/p2.hex
[ ! -e "$work/run" ] || { echo "run-test: something given was executed" >&2; failed=1; }
[ "$failed" = 0 ] && echo "make run: cards in any layout, and nothing that is given is executed"
exit $failed
