#!/usr/bin/env bash
# The proved frame reader and writer against a second implementation.
set -euo pipefail
mkdir -p target
tools/program framecheck >target/framecheck.log 2>&1 || { tail -n 20 target/framecheck.log; exit 1; }
bash second/cargo.sh build --bins
second/target/proved/tests/frames target/bin/framecheck
