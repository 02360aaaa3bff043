#!/usr/bin/env bash
# Counts, point by point, the places of docs/DESIGN-PASS.md in crates/*/src. `bash tools/places.sh -l` lists them too.
set -u
cd "$(dirname "$0")/.." || exit 1
show=${1:-}

# place NAME PATTERN [PATTERN THAT IS LEFT OUT]: the lines of src/ that match, tests left out
place() {
    local found
    found=$(grep -rnE "$2" crates/*/src --include='*.rt' | grep -vE '/tests\.rt:|:[0-9]+: *//' | grep -vE "${3:-no such line}")
    printf '%-64s %4d\n' "$1" "$(printf '%s' "$found" | grep -c .)"
    [ "$show" = -l ] && printf '%s\n' "$found"
}

place '1 a field that is a flag'                    '^ *(pub )?[a-z_]+: bool,$'
place '1 a function that answers a flag'            '\) -> bool'
place '1 a refusal passed on by hand'               'let (Some\(.*\)|Ok\(.*\)|None) = .* else \{|Err\(refusal\) => '
place '1 a test by let true or let false'           'let (true|false) = '
place '1 a number for a kind, a class or a market'  '\b(class|marks|kind): u(8|16)\b|\bnumber: u8\b|fn of\(number'
place '2 a market, a row of lots, a price, a figure of a unit (by name)' \
    'struct (Fast|Slow)(Up|Down);|fn (up|down)_(lots|energy)\(|fn (higher|lower|highest_upper|lowest_lower)\(|fn no_lots\(|fn (availability|notification)_record\(|pub fn (declare|notify)\(&mut self, number|struct (Slip|SlipFigures) '
place '3 a loop over numbers, or with a test of one' 'for [a-z_]+ in \(?[0-9a-z_]+\.\.|\bwhile '
place '4 a number made wider by as'                 '\bas (u8|u16|u32|u64|usize|i32|i64)\b'
place '4 equality, conversion or a blank by a function of its own' \
    'fn (is|number|class_of|marks_of|figures|letter|none|blank|no_figures|no_lots|nothing|filler)\(|fn of\(number|const NO_'
place '4 text put down byte by byte'                'fn (put_[a-z_]+|width|signed_width|row_length)\('
place '4 enums and structs'                         '^ *pub(\(crate\))? (enum|struct) '
place '4 derives of equality'                       'derive\(.*PartialEq'
place '5 a fact asked of a caller'                  'requires'
place '6 an array of fixed length in a struct'      '^ *(pub )?[a-z_]+: \[.*; [0-9]+\],$'
place '6 a length or a place beside it'             '^ *(pub )?(count|at|next): usize,$'
place '7 a match'                                   '\bmatch '
place '7 a table of functions: dyn, function pointers'  'dyn |: fn\('
place '7 a closure'                                 '\|[a-z_, &]+\| ' '\|\|'
printf '%-64s %4d\n' '8 files of answers and invariants' "$(find crates/*/proofs -name Answers.antt -o -name Invariants.antt | wc -l)"
printf '%-64s %4d\n' '8 lines in proofs/' "$(cat $(find crates/*/proofs -name '*.antt') | wc -l)"
