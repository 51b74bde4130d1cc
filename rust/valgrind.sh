#!/bin/sh
# Runs every call of the library under valgrind, on buffers that are exactly as long as they say: outside/examples/memory.rs. Fails on
# any invalid read or write and on any decision that depends on memory that was never set. The argument is the number of random rounds.
set -eu
cd "$(dirname "$0")"
if ! command -v valgrind >/dev/null; then
    echo "valgrind is not installed, and nothing was run. Without it, cargo test -p outside --test guarded shows that no call" >&2
    echo "reaches beyond a buffer; what only valgrind shows is that no answer depends on memory that was never set." >&2
    exit 2
fi
cargo build --release --offline --locked -p outside --example memory
valgrind --quiet --error-exitcode=1 "${CARGO_TARGET_DIR:-target}/release/examples/memory" "${1:-500}"
