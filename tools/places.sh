#!/usr/bin/env bash
# Counts the places in src/ that docs/DESIGN-PASS.md speaks of. `tools/places.sh` counts those of this checkout, `tools/places.sh COMMIT` those of a commit; with -l before it, the lines are listed too.
set -eu -o pipefail
cd "$(dirname "$0")/.."
list=
if [ "${1:-}" = -l ]; then list=yes; shift; fi
from=$(mktemp -d)
trap 'rm -rf "$from"' EXIT
if [ -n "${1:-}" ]; then git archive "$1" crates | tar x -C "$from"; else git ls-files -co --exclude-standard crates | tar c -T - | tar x -C "$from"; fi
cd "$from"

say() { # name, lines
  printf '%-58s %3d\n' "$1" "$(printf '%s' "$2" | grep -c . || true)"
  if [ -n "$list" ] && [ -n "$2" ]; then printf '%s\n' "$2" | sed 's/^/    /'; fi
}
find_all() { grep -rnE "$1" --include=*.rt crates/*/src | grep -vE ':[0-9]+:\s*//' | grep -vE "${2:-^$}" || true; }
twice() { grep -rhoE "$1" --include=*.rt crates/*/src | sort | uniq -d || true; }
clauses() { # those that stand three times or more in one crate
  for c in crates/*; do
    [ -d "$c/src" ] || continue
    grep -rhoE '(requires|ensures)( [a-z_]+)? \{.*\}' --include=*.rt "$c/src" | sed -E 's/^(requires|ensures)( [a-z_]+)? \{/\1 {/' | sort | uniq -c | awk -v c="$c" '$1 > 2 { print c ": " $0 }' || true
  done
}

echo "1. Options and results"
say "  a lookup that answers a default" "$(find_all 'if [a-z]+ < [a-z_.]*(len\(\)|count) \{')"
say "  a match on Ok or Err by hand" "$(find_all '^\s*Err\(.*\) =>')"
say "  a match on None by hand" "$(find_all '^\s*None =>')"
say "  a bool for: there was room, or a step" "$(find_all 'Result<bool, Refusal>|fn (wait|keep)\(' 'fn measure\(&mut self, handle')"
say "  a number in place of a kind" "$(find_all ' as u8 ==')"
echo "2. Twins"
say "  types of one name in two places" "$(twice '^(pub )?(struct|enum) [A-Za-z]+')"
say "  functions of one name (to be read)" "$(twice 'fn [a-z_]+')"
echo "3. Loops"
say "  while" "$(find_all '^\s*while ')"
say "  for over numbers" "$(find_all 'for [a-z_]+ in .*\.\.')"
say "  for over elements (to be read)" "$(find_all '^\s*for .* in ' '\.\.')"
say "  a recursion that counts an index" "$(find_all '^\s*[a-z_]+\(at \+ 1, tree\)')"
echo "4. Written by hand"
say "  comparison" "$(find_all '^impl.* (PartialEq|Eq|PartialOrd|Ord) for|fn same_')"
say "  From" "$(find_all '^impl.* (From|TryFrom)<.*> for')"
say "  conversion by a function" "$(find_all 'fn (basic|of|name_of|width|number|layer_word)\(')"
say "  printing" "$(find_all 'fn (push_[a-z]+|refused_line|report_text|list|leaf_text)\b')"
echo "5. Facts and parameters that go together"
say "  a clause that stands three times or more" "$(clauses)"
say "  words and at" "$(find_all 'words: &\[Word<.*>\], *(at|from): usize|^ *words: &\[Word')"
say "  text and tree" "$(find_all 'text: &\[u8\], tree: &Tree|^ *tree: &Tree,|tree: &Tree, text')"
say "  program and machine" "$(find_all 'machine: &mut M')"
echo "6. Buffers, parallel arrays, arenas"
say "  an array with a count beside it" "$(find_all '^\s*count: usize,')"
say "  a Vec in a struct (to be read)" "$(find_all '^\s*(pub(\(crate\))? )?[a-z]+: Vec<.*>,')"
echo "7. Steps by a switch"
say "  dyn, function pointers, tables of functions" "$(find_all '\bdyn\b|: fn\(|\[fn\(')"
echo "8. Proofs of functions"
say "  files" "$(find crates/*/proofs -mindepth 2 -name '*.antt' | sort)"
say "  lines" "$(find crates/*/proofs -mindepth 2 -name '*.antt' -exec cat {} + | grep . || true)"
say "  lines of lemmas" "$(find crates/*/proofs -maxdepth 1 -name '*.antt' -exec cat {} + | grep . || true)"
