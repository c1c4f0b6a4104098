#!/usr/bin/env bash
# The bytes of a card that is written as text: hex digits in any case, with or without blanks, and comments from # to the end of the line, as in cards/. For
# `make run`: RUN_GIVEN says whether RUN_CARD has the text or RUN_FILE names a file with it, and document 01's card is taken where neither is given.
set -eu
export LC_ALL=C

fail() {
    echo "$1" >&2
    exit 1
}

case ${RUN_GIVEN:-} in
CARD) text=$RUN_CARD name=CARD ;;
FILE) name="FILE=$RUN_FILE" ;;
'CARD FILE') fail "CARD and FILE are both given: which card is meant?" ;;
*) RUN_FILE=cards/program.hex name=cards/program.hex ;;
esac
if [ "$name" != CARD ]; then
    [ -f "$RUN_FILE" ] && [ -r "$RUN_FILE" ] || fail "$name: no file that can be read"
    cmp -s "$RUN_FILE" <(tr -d '\0' < "$RUN_FILE") || fail "$name: a zero byte in it, so it is no text"
    text=$(< "$RUN_FILE")
fi

digits=$(sed 's/#.*//' <<< "$text" | tr -d '[:space:]')
other=${digits//[0-9a-fA-F]/}
[ -z "$other" ] || fail "$name: '${other:0:1}' is no hex digit"
((${#digits} % 2 == 0)) || fail "$name: an odd number of hex digits, and a byte has two"
printf '%b' "$(sed 's/../\\x&/g' <<< "$digits")"
