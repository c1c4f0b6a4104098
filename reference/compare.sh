#!/usr/bin/env bash
# The second program against what is stored, run at the top of the repository by `make vectors`. It must give the answers of cases/papers.txt; then it makes the
# inputs and outputs that are stored beside the programs anew. Where a stored one differs this fails; with --store it puts the new one in its place.
set -eu
(cd reference && cargo test --release --quiet --lib && cargo build --release --quiet)
store=${1:-}
programs=reference/target/release
fresh=target/vectors
mkdir -p $fresh
different=0

# compares a fresh file with the stored one
stored() { # FRESH STORED
    if cmp -s "$1" "$2"; then
        echo "$2: the same"
    elif [ "$store" = --store ]; then
        cp "$1" "$2"
        echo "$2: replaced"
    else
        echo "$2: DIFFERS from $1"
        different=1
    fi
}

# the papers' cases, and their answers as the papers have them
sed 's/ => .*//' cases/papers.txt > $fresh/papers.cases
sed -n '/^#/!s/.* => //p' cases/papers.txt > $fresh/papers.answers
$programs/replay < $fresh/papers.cases > $fresh/papers.replayed
diff $fresh/papers.answers $fresh/papers.replayed || { echo "cases/papers.txt: the second program answers differently"; exit 1; }
echo "cases/papers.txt: answered as the papers do"

# the papers' cases and the seeded ones, replayed
{ cat $fresh/papers.cases; $programs/cases; } > $fresh/stdin
$programs/replay < $fresh/stdin > $fresh/stdout
stored $fresh/stdin crates/replay/stdin
stored $fresh/stdout crates/replay/stdout

# the outputs of the program; `long` is a card of 267 bytes and more behind it, past the 512 that are read
$programs/inspect < crates/inspect_card/stdin > $fresh/inspect_card
stored $fresh/inspect_card crates/inspect_card/stdout
for input in p1 p2 refused nothing long eight_words; do
    $programs/inspect < crates/inspect_inputs/data/$input
done > $fresh/inspect_inputs
stored $fresh/inspect_inputs crates/inspect_inputs/stdout
exit $different
