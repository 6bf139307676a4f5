#!/usr/bin/env bash
# edits.sh [CRATE..]: further must-fail edits, which the prover must refuse as those of the gate. They stand in
# tests/by-hand/edits/CRATE; without a name all of them are tried, which takes long.
set -euo pipefail
cd "$(dirname "$0")/../.."
copy=$(mktemp -d)
trap 'rm -rf "$copy"' EXIT
git ls-files -z crates crates.txt HANDLES | xargs -0 cp --parents -t "$copy"
rm -rf "$copy"/crates/*/must-fail
names=("$@")
[ ${#names[@]} -gt 0 ] || names=($(ls tests/by-hand/edits))
for name in "${names[@]}"; do cp -r "tests/by-hand/edits/$name" "$copy/crates/$name/must-fail"; done
cd "$copy"
rt must-fail "${names[@]}"
