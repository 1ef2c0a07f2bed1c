#!/bin/sh
# The places in src/ that docs/DESIGN-PASS.md counts, by point: tools/places.sh [TREE], or with -v the lines themselves.
show=-c
[ "$1" = -v ] && { show=-v; shift; }
cd "${1:-.}" || exit 1

# NAME PATTERN: lines of src/ that match, without `use` lines and comments
count() {
    lines=$(grep -nE "$2" crates/*/src/*.rt | grep -vE '^[^:]*:[0-9]+: *(ghost use|use|pub use|//)' )
    if [ "$show" = -v ]; then printf '== %s\n%s\n' "$1" "$lines"; else printf '%4d  %s\n' "$(printf '%s' "$lines" | grep -c .)" "$1"; fi
}

count '1 a question as Option'             'Option<Question>'
count '1 an Option or Err passed on by hand' 'if let Some\(.*\{ *$|None => return|let Some\(.*else \{$'
count '1 marks for what is not there'      'NO_[A-Z]+\b|Unknown\b'
count '1 enums of our own'                 '^ *(pub |pub\(crate\) )?enum '
count '2 caps and powers'                  'fn [a-z_]*(capped|power_of)\b'
count '2 constants of zeros'               'const NO_[A-Z]+: (Measure|Root|Selection)|let none ='
count '2 functions that push or write a line' 'fn (push|write)_(root|roots|total|refusal|card)\b|fn (accepted|card_of|card_text)\b'
count '3 loops'                            '^ *(for .* in|while|loop)\b'
count '3 loops over a range'               '^ *for [a-z_]+ in .*\.\.|^ *while\b'
count '4 bytes and digits by hand'         "% 256|/ 256|256 \*|>= b'|<= b'|% 10|10 \*"
count '4 numbers written one by one'       '(push_decimal|add_number)\('
count '5 facts about a table'              'requires .*(item_count table\.now|Sized table\.now)'
count '5 conditions in tuples'             'requires [a-z]* *\{ \(.*×'
count '6 arrays with a length beside'      '^ *(pub |pub\(crate\) )?(bytes|measures|types|around|precedes|starts|events|roots): \['
count '6 lengths beside them'              '^ *(pub |pub\(crate\) )?(len|roots): usize'
count '7 functions as values'              'dyn |fn\(|Box<|impl Fn'
