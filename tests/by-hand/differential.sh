#!/usr/bin/env bash
# tests/by-hand/differential.sh [EVENTS [SEED]]: the comparison of tests/differential.sh, as long as asked. EVENTS is how many
# events the random cases have in all, 100,000,000 if it is left out; SEED is the seed of the first one, by default one far behind
# those of the gate, so that no case comes twice.
set -euo pipefail
cd "$(dirname "$0")/../.."
mkdir -p target
tools/program trial >target/differential.log 2>&1 || { tail -n 20 target/differential.log; exit 1; }
c/library >target/differential.log 2>&1 || { tail -n 20 target/differential.log; exit 1; }
bash second/cargo.sh build --bins
events=${1:-100000000} seed=${2:-1000000} start=$SECONDS
second/target/proved/tests/differential target/bin/trial --events "$events" --seed "$seed"
echo "$events events from seed $seed: $((SECONDS - start)) s"
