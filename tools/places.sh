#!/usr/bin/env bash
# Counts the places that docs/DESIGN-PASS.md speaks of, in the crates' sources below the folder that is named (or here). Give it the word
# "list" as well to see each place.
cd "${1:-.}" || exit 1
list=${2:-}
count() { # what, grep's options and pattern
  local what=$1
  shift
  local found
  found=$(grep -rnE "$@" crates/*/src || true)
  printf '%4d  %s\n' "$(printf '%s' "$found" | grep -c .)" "$what"
  [ "$list" = list ] && [ -n "$found" ] && printf '%s\n' "$found" | sed 's/^/          /'
}
echo "1 own options and results, flags, numbers"
count "flags in a struct" '^\s+(pub(\(crate\))? )?\w+: bool,'
count "a flag in a pair" -- '-> \(bool'
count "a call that writes and answers a flag" -- '^    (pub )?fn (set|post)\(.*-> bool|^    \) -> bool'
count "numbers for kinds, stages and refusals" -- '(kind|stage): u8|(refusal|number)\w*\(.*-> u8|fn kind_of'
count "a refusal in an Option" 'Option<Refusal>'
count "0 in place of none" '(None|_|Ok\(_\)) => (0|self.supplier != 0)|map_or\(0'
count "a match or an early return in place of a method or ?" 'return None;|None => Err|None => None|None => false|Err\(_\) => None'
count "a Result thrown away" 'let _ = '
echo "2 twins: names that several functions have"
grep -rhoE 'fn \w+' crates/*/src | sort | uniq -c | sort -rn | awk '$1 >= 3 {printf "%4d  %s %s\n", $1, $2, $3}'
echo "3 indices counted by hand"
count "while loops" '^\s*while '
count "for loops over indices" 'for (i|n|place) in [^{]*\.\.'
echo "4 equality, order, conversion and printing by hand"
count "fields compared one by one" 'self\.\w+ == 0 && self'
count "the lower and the higher" 'fn (lower|higher)\('
count "conversions" 'fn (wide_tiers|kind_of|stage_number|month_of|loss_of|price_of|call)\(.*\) -> \w'
count "functions that print" 'fn (print|push)_\w+'
echo "5 clauses that stand three times or more, references aside"
grep -rhoE '(requires|ensures) (\w+ )?\{ .* \}' crates/*/src |
  sed -E 's/self\.(old|now|new)|result|\b(accounts|lines|rows|prices)\.(old|now|new)\b/X/g; s/(requires|ensures) \w+ \{/\1 {/' |
  sort | uniq -c | sort -rn | awk '$1 >= 3 {n += $1; k += 1; print} END {printf "%4d  clauses, %d in all\n", k, n}'
echo "6 buffers with a length, lists searched by hand"
count "a count beside a buffer" '^\s+(pub )?count: (u8|usize),|let mut buffer'
count "halving by hand" 'let mid ='
echo "7 steps picked by hand"
count "traits with one method" '^pub(\(crate\))? trait (Condition|Walk)'
count "a match that picks a rule" 'DayKind::(Ordinary|Critical) => self'
echo "8 proofs"
printf '%4d  files of answers, %d lines\n' "$(find crates -name Answers.antt -not -path '*/out/*' | wc -l)" \
  "$(find crates -name Answers.antt -not -path '*/out/*' -print0 | xargs -0 cat | wc -l)"
printf '%4d  files of invariants, %d lines\n' "$(find crates -name Invariants.antt -not -path '*/out/*' | wc -l)" \
  "$(find crates -name Invariants.antt -not -path '*/out/*' -print0 | xargs -0 cat | wc -l)"
printf '%4d  lines of lemmas\n' "$(cat crates/*/proofs/*.antt | wc -l)"
