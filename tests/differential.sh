#!/usr/bin/env bash
# The proved code against the second implementation: the trial program and the static library, on the same lists. By hand, as
# long as asked: tests/by-hand/differential.sh.
set -euo pipefail
mkdir -p target
tools/program trial >target/differential.log 2>&1 || { tail -n 20 target/differential.log; exit 1; }
c/library >target/differential.log 2>&1 || { tail -n 20 target/differential.log; exit 1; }
bash second/cargo.sh build --bins
second/target/proved/tests/differential target/bin/trial
