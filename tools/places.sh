#!/usr/bin/env bash
# Lists lines of src/ that are worth a look, point by point of docs/DESIGN-PASS.md, in the work tree or in the commit given.
set -euo pipefail
cd "$(dirname "$0")/.."
commit=${1:-}
places() {
    echo "== $1"
    git grep -nE "$2" ${commit:+"$commit"} -- 'crates/*/src/*.rt' || true
}
places "1 own Option or Result, flags, numbers for kinds" \
    'enum |None => None|Some\(\w+\) => Some\(|Err\(\w+\) => Err\(|let mut \w+ = (true|false)|modulus|kind as|-> u8$|u8, usize|unreachable|AllocError\)$|Err\(AllocError\)|< 0 \{'
echo "== 2 twins: names of functions that stand more than once"
git grep -hoE '\bfn \w+' ${commit:+"$commit"} -- 'crates/*/src/*.rt' | sort | uniq -c | sort -rn | awk '$1 > 1'
places "3 loops" 'for \w+ in [0-9a-z_.()]+\.\.|while |loop \{|\.min\('
places "4 equality, copies, conversions, printing" \
    'fn (same|eq|cmp|number|place|canonical|tightened|loosened|kind_of|natural|from_\w+|from|as_\w+|to_\w+|push_\w+|add|sub|neg|mul)\b|refusal \{'
echo "== 5 clauses that stand more than once"
git grep -hE 'requires|ensures' ${commit:+"$commit"} -- 'crates/*/src/*.rt' | sed -E 's/^\s*//' | sort | uniq -c | sort -rn | awk '$1 > 1'
places "5 parameters that travel together" 'width: usize, \w+: usize|&mut String|rounds_f: usize, rounds_p'
places "6 buffers and arrays" '\[[^];]+; [A-Za-z0-9_]+\]|width: usize'
places "7 switches" 'match (self\.)?\w*(kind|modulus|case)\b|Kind::\w+( \| Kind::\w+)* =>'
echo "== 8 proofs"
if [ -n "$commit" ]; then
    git ls-tree -r --name-only "$commit" -- crates | grep -E '/proofs/.*\.antt$' | while read -r f; do git show "$commit:$f"; done | wc -l
else
    git ls-files -- 'crates/*/proofs/*.antt' | xargs cat | wc -l
fi
