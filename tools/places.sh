#!/usr/bin/env bash
# Lists, for each kind of older form, the places of the sources that have it. Give it the top of a checkout; with -c after it
# only the counts are printed. What each heading looks for is said in docs/DESIGN-PASS.md.
set -euo pipefail
cd "${1:-.}"
counts=${2:-}

show() {
    local found
    found=$(cat)
    printf '%4d  %s\n' "$(printf '%s' "$found" | grep -c . || true)" "$1"
    [ "$counts" = -c ] || printf '%s\n' "$found" | sed 's/^/      /'
}

src() { find crates -path '*/src/*' -name '*.rt' -not -path '*/out/*' | sort; }
look() { src | xargs grep -nE "$1" || true; }

look '^ *(pub(\(crate\))? )?enum ' | show 'enums'
look 'Result<Option<' | show 'an Option within a Result'
look 'Err\((refusal|error)\) => Err\((refusal|error)\)|None => Ok\(None\)|None => Err\(|Some\([a-z]+\) => Ok\([a-z]+\)' | show 'arms that hand an error or a value on'
look '^ *(let mut )?[a-z_]+: bool|, [a-z]+: bool|let mut [a-z]+ = (true|false);' | show 'flags'
look '^ *(while|loop)\b|for [a-z_]+ in [a-z0-9_]+\.\.' | show 'loops over an index'
look 'impl(<.*>)? (PartialEq|Eq|PartialOrd|Ord|Clone|Copy|Debug|Default|Display|From<.*>|TryFrom<.*>|fmt::Display)( for|<)' | show 'traits of std implemented by hand'
look 'fn (show_[a-z]+|agrees|told|thing|raw|raw_atom)\(' | show 'functions that convert or print'
look '^ *(pub(\(crate\))? )?[a-z_]+: \[.*; [0-9]+\],|^ *(pub(\(crate\))? )?(count|used|len): usize,' | show 'arrays and counts as fields'
look '\b(dyn [A-Z]|impl Fn|F: Fn|fn\()' | show 'closures and functions taken'
{ src | xargs cat | grep -oE '(ensures|requires)( [a-z_]+)? \{ .* \}' | sed -E 's/^(ensures|requires)( [a-z_]+)? //' | sort | uniq -c | awk '$1 >= 3'; } | show 'clauses that stand three times or more'
look 'Prim\.search' | show 'proofs by search in the sources'
find crates -path '*/proofs/*' -name '*.antt' -not -path '*/out/*' | xargs grep -hE '^pub [a-z].*: goal\.' | show 'answers'
