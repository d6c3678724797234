#!/usr/bin/env bash
# Builds the static library, which proves it, and tests the Rust crate over it. What cargo makes stays outside the repository.
here="$(cd "$(dirname "$0")" && pwd)"
(cd "$here/../../crates/zangipuk_c" && rt lib) || exit 1
cd "$here" || exit 1
export CARGO_TARGET_DIR="${CARGO_TARGET_DIR:-${TMPDIR:-/tmp}/zangipuk-target}"
cargo test --offline --release || exit 1
# The example that pools SQLite connections, where the system has the library.
if echo 'int main(void) { return 0; }' | cc -x c - -lsqlite3 -o /dev/null 2>/dev/null; then
    cargo run --offline --release --example sqlite --features sqlite || exit 1
fi
