#!/bin/sh
# tools/forms.sh [-l]
# Counts the places of older forms in the crates' sources, point by point of docs/DESIGN-PASS.md; with -l it lists them.
cd "$(dirname -- "$0")/.." || exit 1
list=$1

# count NAME PATTERN: lines of sources (without comments) that have the pattern
count() {
    found=$(find crates -path '*/out' -prune -o -path '*/src/*.rt' -print | LC_ALL=C sort | xargs grep -nE "$2" | grep -vE '^[^:]*:[0-9]*: *//')
    printf '%4d  %s\n' "$(printf '%s' "$found" | grep -c '')" "$1"
    if [ "$list" = -l ]; then printf '%s\n' "$found" | sed 's/^/          /'; fi
}
# proofs NAME PATTERN: proof files of that name
proofs() {
    printf '%4d  %s\n' "$(find crates -path '*/out' -prune -o -path '*/proofs/*' -name "$2" -print | wc -l)" "$1"
}

echo '1 own Option and Result, flags and numbers for kinds'
count 'an own case for a refusal, or an own Option' '^    Refused\((usize, )?Refusal\)|^pub enum Ranked'
count 'a refusal made or taken apart by an own case' '::Refused\(([a-z]|_|Refusal)'
count 'functions that take a refusal out of an own enum' 'fn (why_|is_filed|copied\(|one_if_filed|number_filed)'
count 'a number for nothing, for a kind or for a step' '4294967295|usize = 65536|82001|=> 33|mode: u8|order: u8|q\.call (==|<=)|<= q\.call|0 < (r|mode|sink\.mode) '
count 'the class of a probe as a number' 'class [!=]= [0-2]|class == [0-2]|fn class|class\(.*\) != 1|class: u8'
echo '2 twins'
count 'functions that stood once for each size or step' 'fn (low2|low4|high4|half_[124]|first_not_below|first_above|read_be_u(32|64)|read_u(8|16|32|64)|write_u(8|16|32|64)|move_(up|down)_8|free_(few|halves|words)|mark_(few|halves|words)|end_(one|two)|signed_word|slot_word|joined|head_joined|head_two|file_two|lesser|least)\b'
count 'the suffix of a slot found in place: a head or a slice' 'head_bytes\('
count 'one conversion for each kind of answer' 'pub fn (found|bounded|compared|child|verdict|edited|filed|replaced|entry|copied|trailing|needed|forecast)\(f'
echo '3 loops that count by hand'
count 'while loops' "^ *('[a-z]+: )?while "
count 'steps of such a loop' '^ *[a-z0-9]+ [+-]= (1|8|16|32);'
echo '4 equality, order, copying and conversion by hand'
count 'arms that turn an order into a truth or a number' 'Order(ing)?::(Below|Same|Above|Less|Equal|Greater) => (true|false|-?[0-2])'
count 'comparisons, copies and conversions' 'fn (by_number|same|same_hints|same_front|flag_number|print_yes|digit|decimal_len|spell|put_hex|put_decimal|lesser|least|equal|padded|head_short)\b'
echo '5 facts that stand in many contracts, parameters that travel together'
count 'the length of the page with other facts, in a requires' 'requires.*16384 ≤ length p\.(now|old)'
count 'the header rules, in a requires' 'requires.*rules_of h ≡ true'
count 'page, header and width together' 'p: &(mut )?\[u8\], h: Header, width: u8|p: &\[u8\], width: u8, suffix'
count 'ghost facts of a type' '^    ghost [a-z_]+: \{'
echo '6 buffers with a length or a place beside them'
count 'a buffer and a place in it' 'out: &mut \[u8\], at: usize|buffer: &mut \[u8\], at: usize'
count 'registers and runs by place' 'length store\.(now|old) ≡ 328016|wire::front\(|&(probe|key)\[\.\.n\]'
echo '7 switches on a step'
count 'which call is asked for' 'q\.call (==|<=)|<= q\.call|^ *Call::[A-Za-z]+ =>'
echo '8 proofs'
proofs 'files of answers' Answers.antt
proofs 'files of invariants' Invariants.antt
printf '%4d  lines in proofs/\n' "$(find crates -path '*/out' -prune -o -path '*/proofs/*' -name '*.antt' -print | xargs cat | wc -l)"
