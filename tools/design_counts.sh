#!/bin/bash
# design_counts.sh [CHECKOUT]: counts the places of the eight points of docs/DESIGN-PASS.md in the sources. Each line is a search of its own: what it finds is
# listed by leaving out `| wc -l`.
cd "${1:-.}" || exit 2
S='crates/*/src/*.rt'
say() { printf '%-62s %s\n' "$1" "$2"; }
say '1a own enums/structs shaped as Option or Result'      "$(grep -nE '^pub enum (Answer|Evaluation|Written|Found|Claimed|Parsed|Inverted|Read|Skimmed|Reading)\b|^pub struct Inverted\b' $S | wc -l)"
say '1b lines that name their cases'                       "$(grep -nE '\b(Answer|Evaluation|Written|Found|Claimed|Parsed|Inverted|Read|Skimmed)::|Reading::Refused' $S | wc -l)"
say '1c refusals handed on by hand (if let / match arm)'   "$(grep -nE 'if let (Answer::(Refused|Done)|Found::First)|Refused\((r|n)\) =>|Answer::Done =>' $S | wc -l)"
say '1d a number for none, a kind, or a flag beside (functions)' "$(grep -nE 'fn (first_high|first_zero|first_equal|exponent|input_number|placed|numbers_of|word_or_zero|entry_at)\(' $S | wc -l)"
say '2  twins (functions of the list in the script)'           "$(grep -nE 'fn (sweep_in|sweep|pass|spread_in|spread_loose|scan_places|scan_known|on_line|on_line_of|peel_in|peel_at|first_loose|second_loose|first_sum|second_divided|first_unit|first_line|second_line|settle|settle_second|second_settled|second_scale|scale_power|shorter|least|part_end|same_words|same|same_places|word_at|block_word|product_at|scale|scale_all|four_words|base_message|block_len|diagonals_len|block_at|judge_block|judge_without_row|draw|draw_behind|line_word|line_at|one_word|base|answer|block_of_two|block_of_four|minor_of_two|minor_of_four|two_rows|four_rows|write_right|write_blocks|spread_right|all_below|lengths_ok|message_len|copy|clear|ones|begin|give|give_final|negative)\(' $S | wc -l)"
say '3  while loops'                                       "$(grep -nE '^\s*while ' $S | wc -l)"
say '3  of them counted by hand (i += 1, i -= 1)'          "$(grep -nE '^\s*[a-z]+ [+-]= 1;' $S | wc -l)"
say '4a types with Clone, Copy alone'                      "$(grep -nE 'derive\(Clone, Copy\)\]' $S | wc -l)"
say '4b ladders of `return false`'                         "$(cat $S | grep -Pzo '\{\n\s+return false;\n\s+\}' | tr -cd '{' | wc -c)"
say '4c fields written as x: x'                            "$(grep -nE '\b(\w+): \1,?$' $S | wc -l)"
say '4d equality, min, bytes, conversions by hand (functions)' "$(grep -nE 'fn (same|same_words|shorter|least|join|word_at|put_word|pair_bytes|rotr|plus|sum4|sum5|told|plain|named|refused|failed|read_as|not_read|numbers_of|placed|wide|hex)\(' $S | wc -l)"
say '4e Reply { number: 0, first: 0, second: 0 }'          "$(cat $S | grep -Pzo 'Reply \{\s*number: 0,' | tr -cd '{' | wc -c)"
say '5a functions that take field'                         "$(cat $S | grep -Pzo 'fn \w+(<[^>]*>)?\([^)]*\bfield: (Field|bool)' | tr -cd '\0' | wc -c)"
say '5b functions that take t and t2'                      "$(cat $S | grep -Pzo 'fn \w+(<[^>]*>)?\([^)]*\bt2: ' | tr -cd '\0' | wc -c)"
say '5c functions that take g, t and t2'                   "$(cat $S | grep -Pzo 'fn \w+(<[^>]*>)?\([^)]*\bg: [^)]*\bt2: ' | tr -cd '\0' | wc -c)"
say '5d functions that take k and n'                       "$(cat $S | grep -Pzo 'fn \w+(<[^>]*>)?\([^)]*\bk: usize,\s+n: usize' | tr -cd '\0' | wc -c)"
say '5e functions of seven parameters or more'             "$(cat $S | grep -Pzo 'fn \w+(<[^>]*>)?\(([^,)]*,){6,}[^)]*\)' | tr -cd '\0' | wc -c)"
say '6  arrays with a length beside, (bytes|out, at) pairs' "$(cat $S | grep -Pzo 'fn \w+\([^)]*\b(out|bytes): [^)]*\bat: usize|-> \[u32; \d+\]' | tr -cd '\0' | wc -c)"
say '7  match on which step'                               "$(grep -nE 'match way|Way::' $S | wc -l)"
say '8  Answers.antt files, lines'                         "$(find crates/*/proofs -name Answers.antt | wc -l), $(cat $(find crates/*/proofs -name Answers.antt) | wc -l)"
say '8  Proof.antt left'                                   "$(find crates/*/proofs -name Proof.antt | wc -l)"
