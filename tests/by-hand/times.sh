#!/usr/bin/env bash
# Prints what README says of check times and of lines to read: the check of each crate from nothing, over the crates below it, and
# the lines of definitions that README names. Not part of the gate, whose own stages are printed by .ci/run.
set -euo pipefail
cd "$(dirname "$0")/../.."
copy=$(mktemp -d)
trap 'rm -rf "$copy" "$copy.log"' EXIT
git ls-files -z crates crates.txt HANDLES | xargs -0 cp --parents -t "$copy"
rm -rf "$copy"/crates/*/must-fail
# A comment makes each crate a new one: nothing that an earlier run kept is taken for its check.
for top in "$copy"/crates/*/src/{lib,main}.rt; do
    [ ! -e "$top" ] || sed -i "1i // $(date +%s%N)" "$top"
done
echo '| crate | check |'
echo '|---|---|'
for name in $(sed 's/[ :#].*//' crates.txt); do
    start=$SECONDS
    (cd "$copy" && rt ci "$name") >"$copy.log" 2>&1 || { tail -n 20 "$copy.log"; exit 1; }
    echo "| \`$name\` | $((SECONDS - start)) s |"
done
echo "all crates, one at a time: $SECONDS s"

# lines NAME PATH..: lines of definitions, without empty lines, comments and `use` lines
lines() { echo "$1: $(cat "${@:2}" | grep -cvE '^ *(--.*)?$|^use |^pub mod ')"; }
specs() { for c in "$@"; do find "crates/$c/specs" -name '*.antt' ! -name Laws.antt; done; } # Laws are proofs
lines 'a ride' $(specs limits unbounded ride | grep -v /Waits.antt) # what a wait of 0 stands for is said by `accepted`
lines 'the link and demand 3' crates/events/specs/{State,Counts,Rules,Account,View}.antt $(specs lists runs link) $(specs agreement)
lines 'the least wait' crates/limits/specs/Waits.antt $(specs leastwait)
lines 'the parts' $(specs tables air mat pad)
lines 'frames' $(specs buffers frames)
lines 'a page' $(specs buffers page)
lines 'a file' $(specs buffers horsefile)
lines 'two devices' $(specs devices world)
lines 'C' $(specs cframes clinks exports cdevices) crates/events/specs/Lent.antt
