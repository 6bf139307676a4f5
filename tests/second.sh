#!/usr/bin/env bash
# The second implementation's own tests: cases, lists, mistakes, built ends against unbounded ends.
set -euo pipefail
bash second/cargo.sh test
