#!/usr/bin/env bash
# Renames a crate: `tools/rename_crate.sh OLD NEW`. Run as `rows short_rows` and `flat flat_shelf`, since `rows` and `flat` are
# the names of modules of other crates too, which the gate refuses.
set -euo pipefail
cd "$(dirname "${BASH_SOURCE[0]}")/.."
git mv "crates/$1" "crates/$2"
find crates \( -name '*.rt' -o -name '*.antt' -o -name '*.edit' \) -not -path '*/out/*' -print0 |
    xargs -0 sed -i -E "s/\bRattle\.$1\./Rattle.$2./g; s/\buse $1::/use $2::/g"
sed -i -E "s/\b$1\b/$2/g" crates.txt
