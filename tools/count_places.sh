#!/bin/bash
# Counts, in crates/*/src at a commit (HEAD if none is named), the places that docs/DESIGN-PASS.md speaks of.
# With -v it prints the lines too.
show=0
if [ "$1" = "-v" ]; then show=1; shift; fi
at=${1:-HEAD}

count() {
    local lines
    lines=$(git grep -nE "$2" "$at" -- 'crates/*/src/*.rt' | sed "s/^$at://" | grep -vE "${3:-^$}")
    printf '%4d  %s\n' "$(printf '%s' "$lines" | grep -c '')" "$1"
    if [ $show = 1 ]; then printf '%s\n' "$lines" | sed 's/^/          /'; fi
}

echo "1. Option, Result and enums"
count "a bool for done or not done" 'fn (add|push|insert|give|put)[a-z_]*(<[^>]*>)?\(.*\) -> bool|fn or_full'
count "0 for none" 'or 0\.$|\.number\([a-z]*\) [!=]= 0|(symbol|target|state) == 0 ?(\{|\|\|)|numbers\[i\] == 0|count: 4'
count "a number for a side inside" '^ *(\(Phase::Open, [01]\)|[01] =>) |give_side\(&mut c, [01]|side: u32'
count "a match that only passes an Option or Result on" 'None => None|Err\(_\) => (unreachable|Err)|Ok\([a-z]+\) => Ok\('
count "numbers of refusals by hand" 'Refusal::[A-Za-z]+ => [0-9]+|\.number\(\)'
echo "2. Twins"
count "tables of a limited number of entries" 'entries: \[|rows: \[Row|codes: \[u32; 768|numbers: \[u32; 3\]|bytes: \[u8; 8\],|pub children: \[u32; 3\],' 'entries: \[(state|symbol|Rule|State|0)|Rows: \['
count "functions of those tables" 'pub(\(crate\))? fn (empty|blank|none|add|and|items|count|number|push|put)(<[^>]*>)?\(' 'words/'
count "functions of the same name and body but for a type" 'fn (put_symbol_name|put_state_name|is_name|note|same|equals|is)\('
count "arms over the six shapes that are alike" 'Shape::[A-Za-z]+\(f\) => f\.'
echo "3. Loops"
count "loops over an index" 'for [a-z] in (\()?[0-9a-z]+\.\.' 
count "loops that count by hand" '\+= 1;|saturating_add\(1\)'
echo "4. Equality, order, copying, conversion, printing"
count "equality by hand" 'fn (same|is|equals)\(|(^|[^.a-z_])same\('
count "conversion and printing by hand" 'fn (number|letter_of|side|heading|sign|kind_of|steps_of)(<[^>]*>)?\(' 'tables/|fn number\(part'
echo "5. Facts and parameters"
count "clauses that ask for a valid field" 'Field\.valid|\(valid self\.now\)|\{ valid self\.now \}'
count "clauses that ask for or give a valid state" 'Valid \(F\.Field\.model|Valid \(F\.Field\.valid'
count "clauses about places below 2^64, and places that stay near" 'requires \{.*2 \^ 64|ensures near'
count "parameters out and at together" 'out: &mut \[u8\], at: usize|^    at: usize,'
count "parameters field, automaton and entries together" 'm: &(mut )?Automaton'
echo "6. Buffers with a length"
count "a count of the entries that count" '^    (pub |pub\(crate\) )?(count|len|width): usize'
echo "7. Switches on a step, tables of functions"
count "a match on which operation to do" 'match op|fn\(|dyn '
echo "8. Proofs"
printf '%4d  %s\n' "$(git ls-tree -r --name-only "$at" | grep -cE '^crates/[a-z_0-9]+/proofs/.*Answers\.antt$')" "files of answers"
printf '%4d  %s\n' "$(git ls-tree -r --name-only "$at" | grep -E '^crates/[a-z_0-9]+/proofs/.*\.antt$' | while read -r f; do git show "$at:$f"; done | wc -l)" "lines in proofs/"
