#!/usr/bin/env bash
# Counts the places of docs/DESIGN-PASS.md in src/, point by point; with -l it lists them. Run at the top of the repository.
set -euo pipefail
list=${1:-}
files=$(find crates -path '*/src/*.rt' -not -path '*/out/*' | sort)
count() {
    local name=$1 pattern=$2 found
    found=$(grep -nE "$pattern" $files || true)
    printf '%-78s %s\n' "$name" "$(printf '%s' "$found" | grep -c . || true)"
    if [ "$list" = -l ]; then printf '%s\n' "$found" | sed 's/^/    /'; fi
}
count '1  enums of the shape of Option or Result (a variant each)' '^\s+(Refused\(u8\)|Absent|Nothing),'
count '1  a refusal number beside values (fields)' '^\s+(pub )?refusal: u8,'
count '1  a refusal as a number (constants named)' '\brefusals::[A-Z_]+\b'
count '1  a refusal number tested' '\b(refusal|told|over|refused) (!=|==) 0'
count '1  functions that answer a refusal as a number' '^(pub )?(extern "C" )?fn (\w*refusal|check|step|step_back|fill)\(.*-> u8'
count '1  a number or a count that says "cannot be read"' 'MALFORMED|ROOM <=|len\(\) <= |failed: (bool|true|false)'
count '2  functions that differ in a type, a size or a step' '^(pub )?fn (fill_few|fill_many|fill_words|back_few|back_many|back_by|attempt_below|attempt_above|filter_1|filter_2|draw_rank|tsc1_rank|lesser|print_entry|print_draws|print_step|print_back|print_draw|put_table|put_bytes|put_entries|no_places|no_uses|no_marks|numbers_of|coordinates_of|refused)\b'
count '3  loops with while or loop' '^\s*(while|loop)\b'
count '3  for loops over the places of a list' '^\s*for \w+ in 0\.\.\w+(\.\w+)*\.len\(\)'
count '4  conversions, order and equality by hand' '^(pub )?fn (wide|widened|lesser|greater|lower|tied|count|differ|minus|whole|size|magnitude|same_words|mark|low_first|flag_of|signed|below|half_at|digit_of)\('
count '5  facts in requires of three functions or more' 'requires.*(Accepted card|TableOf size|IsTable|Several known|(state|lent|strip)\.count ≤ room|Measurable x y|IsMeasurable|Listed shovels|IsOthers)'
count '5  parameters that travel together: x, y, xs, ys; shovels, times, least' '(xs: &\[i32\], ys|times: &\[u32\], least: u32)'
count '5  a call that accepts the card and then looks at the state' 'state_refusal\(values\.words|call_refusal\('
count '6  arrays beside a count or a length (parameters and fields)' '(: \[[a-z0-9]+; (ROOM|PAGE|MOST_PLACES)\]|\bn: usize\b|\bs: usize,$|\bt: usize,$)'
count '7  a value that says which step to run' '^\s*(pub )?enum (Call|Ask|Move)|is_tsc1: bool|second: bool|hex: bool'
printf '%-78s %s\n' '8  files of proofs: Answers' "$(find crates -path '*/proofs/*' -not -path '*/out/*' -name Answers.antt | wc -l)"
printf '%-78s %s\n' '8  files of proofs: Invariants' "$(find crates -path '*/proofs/*' -not -path '*/out/*' -name Invariants.antt | wc -l)"
printf '%-78s %s\n' '8  lines of proofs' "$(find crates -path '*/proofs/*' -not -path '*/out/*' -name '*.antt' -print0 | xargs -0 cat | wc -l)"
