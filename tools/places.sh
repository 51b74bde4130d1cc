#!/bin/sh
# Counts, in crates/*/src of a commit, the places that docs/DESIGN-PASS.md speaks of: tools/places.sh [COMMIT].
commit=${1:-HEAD}
count() { printf '%5d  %s\n' "$(git grep -hE "$2" "$commit" -- 'crates/*/src/*.rt' | grep -vcE '^ *//')" "$1"; }
echo "1. enums of the repository's own, all"; count 'enum' '^(pub )?enum '
count 'enum variants named Refused, Finished, None, Accepted, Opaque' '^    (Refused|MarkingRefused|HistoryRefused|Finished|None|Accepted|Opaque|Unfinished|Readable)\b'
count 'comparisons of a question, an order or an answer with 0' '\b(q|opens|order|kept|w|own|order) [!=]= 0\b'
count 'numbers packed by a factor of 65536' '65536'
echo "2. twins"; count 'branches on SHORT and MOST' '<= SHORT(_FILE)? \{'
count 'functions that only convert, compare or shorten' '^ *(pub )?fn (least|most|wide|index_of|as_field|from_field|less_one|one_if|order_if|join|differs|refused|bit|has_register|with_register)\('
echo "3. loops"; count 'while and loop' "^ *(let .*= )?('[a-z]+: )?(while|loop)\\b"; count 'for' "^ *('[a-z]+: )?for .* in "
echo "4. conversions and tests"; count 'as-casts' '\bas (u8|u16|u32|u64|usize)\b'
count 'if .. { return true/false }' '^ *return (true|false);'
echo "5. parameters that travel together"; count 'clauses that say that a log is readable' 'requires.*readable .*≡ true'
count 'parameters named starts' '^ *(pub )?fn .*starts: &|^ *starts: &\[u32; 32\],'
count 'parameters named facts' '^ *(pub )?fn .*facts: &|^ *facts: &\[Facts; 11\],'
echo "6. parallel arrays and rows of numbers"; count 'parameters of five columns' '^ *kinds: &'
count 'rows of numbers' '\[u(32|64); (2|3|72)\]|\bRow\b'
echo "7. switches"; count 'match on a rule or a fact' 'match (rule|fact) '
echo "8. proofs"; printf '%5d  %s\n' "$(git ls-tree -r --name-only "$commit" | grep -cE '/proofs/.*/(Answers|Invariants).antt')" 'files of answers and invariants'
printf '%5d  %s\n' "$(git grep -h '' "$commit" -- 'crates/*/proofs/*.antt' | wc -l)" 'lines of proofs'
printf '%5d  %s\n' "$(git grep -h '' "$commit" -- 'crates/*/src/*.rt' | wc -l)" 'lines of src'
