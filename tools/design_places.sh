#!/bin/bash
# Counts, crate by crate, the places of src/ that docs/DESIGN-PASS.md speaks of, each kind by one pattern of `grep -E`, and prints the pattern beside it.
# usage: tools/design_places.sh [TOP]
cd "${1:-.}/crates" || exit 1
count() {
    printf '== %s   grep -hE %q\n' "$1" "$2"
    total=0
    for crate in *; do
        found=$(find "$crate/src" -name '*.rt' -exec cat {} + | grep -cE "$2")
        [ "$found" -gt 0 ] && printf '%s %s, ' "$crate" "$found"
        total=$((total + found))
    done
    printf 'total %s\n' "$total"
}
count "1a own enums of the shape of Result, made or matched" '(Check|Answer|SheetCheck)::[A-Z]|WriteChar::'
count "1b own enums of the shape of Option, made or matched" '::(NoEntry|NoSelector|Nowhere|End|Stop|NoChar|NoTags|NoLink|NoModification|NoStem|NoPart)\b'
count "1c a flag with a value beside it" '^\s*(pub |pub\(crate\) )?(found|present|accepted|more): bool'
count "1d functions from a kind to a number, or back" 'fn ([a-z_]*_number|number_of|state_of|selector_of|class_place|digit_of|one_if|flag_number)\b'
count "2a functions whose name another crate has too" 'fn (is_plain_at|skip_ascii|skip_letters|skip_plain|is_ascii_base|put_part|put_selector|put_bytes|put_each|put_number|put_line|put_row|one_if|minus|no_finding|number_of|selector_of|wide|word|hex_digit|fill_table|digit_value|either|is_ascii)\b'
count "2b two functions for one definition" 'fn [a-z_]*(_by_block|_by_ends|_by_row)\b'
count "3a while" '^\s*while '
count "3b loop" '^\s*loop \{'
count "3c for" '^\s*for [a-z_(&]+.* in '
count "4a equality, operators, printing by hand" 'fn (eq|fmt|bitor|bitand|bitxor|sub|not|default|add|from_selector|as_selector|rule_number|kind_number)\('
count "4b helpers for a method of std" 'fn (least|larger|minus|add_count|count_ones|in_range|is_within|within|wide|both|either|byte_at|byte|one_if|flag_number|binary_search|is_ascii)\b'
count "5a an output, the start in it and the end as result" 'PutAt '
count "5b a text and a policy together" 'text: &\[u8\], policy: (&\[u8\]|Policy)'
count "5c a text and an offset together" '(text|s|bytes|line): &\[u8\], (at|from|start): usize'
count "6a state in lent bytes, word by word" 'word\((feed|store)|base::(read_word|write_word)\('
count "6b a buffer with a length beside it" '\[0u8; [A-Z_]+\]|, len: usize|len: usize,'
count "7 a switch over which step to run, or over a table" '(SetOperation|RunKind|NamedSet|Form|File|Table)::[A-Z]'
echo "== 8 proofs: files of answers and invariants, their lines, lines of the files of laws"
for crate in *; do
    [ -d "$crate/proofs" ] || continue
    answers=$(find "$crate/proofs" -name Answers.antt -o -name Invariants.antt | wc -l)
    lines=$(find "$crate/proofs" \( -name Answers.antt -o -name Invariants.antt \) -exec cat {} + | wc -l)
    laws=$(find "$crate/proofs" -name '*.antt' ! -name Answers.antt ! -name Invariants.antt -exec cat {} + | wc -l)
    printf '%s %s/%s/%s, ' "$crate" "$answers" "$lines" "$laws"
done
echo
