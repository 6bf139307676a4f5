#!/usr/bin/env bash
# Prints the figures of docs/TIMERS.md that are marked "measured" and fails if one of them does not stand there. Not part of the
# gate: it tries settings, not the link.
set -euo pipefail
cd "$(dirname "$0")/../.."
mkdir -p target
tools/program trial >target/settings.log 2>&1 || { tail -n 20 target/settings.log; exit 1; }
rustc --edition 2021 -O -D warnings -o target/settings tests/by-hand/settings.rs
target/settings target/bin/trial >target/settings.out
failed=0
while IFS= read -r figures; do
    printf '%s\n' "$figures"
    grep -qF -- "$figures" docs/TIMERS.md || { echo '  ^ not in docs/TIMERS.md'; failed=1; }
done <target/settings.out
exit $failed
