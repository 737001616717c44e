#!/usr/bin/env bash
# Builds the programs and the reference, and compares them on random inputs.
# The arguments go to the driver: tools/compare.sh --seed 2 --cases 50000
set -euo pipefail
cd "$(dirname "${BASH_SOURCE[0]}")/.."
programs=()
for name in quote calls; do
    (cd "crates/$name" && rt run < /dev/null > /dev/null)
    programs+=("--$name" "../crates/$name/out/$name")
done
cd reference
cargo test --release --quiet --test documents
cargo run --release --quiet --bin compare -- "${programs[@]}" "$@"
