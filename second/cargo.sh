#!/usr/bin/env bash
# second/cargo.sh COMMAND ARGUMENTS..: cargo on the second implementation, with the proved library linked where it was built. One
# folder and one set of flags, so that all tests share what is compiled.
set -euo pipefail
cd "$(dirname "$0")/.."
library=target/staticlib/libexports.a
linked=''
if [ -e "$library" ]; then
    # the sum makes cargo build again when the library has changed
    sum=$(sha256sum "$library" | cut -c 1-16)
    export RUSTFLAGS="-L native=$PWD/target/staticlib -C metadata=$sum"
    linked='--features proved'
fi
export CARGO_TARGET_DIR=second/target/proved
cargo "$1" --quiet --profile tests --offline --manifest-path second/Cargo.toml $linked "${@:2}"
