#!/usr/bin/env bash
# Builds the program bench and the reference, and times both on the same plants.
set -euo pipefail
cd "$(dirname "${BASH_SOURCE[0]}")/.."
(cd crates/bench && rt run < stdin > /dev/null)
cd reference
cargo run --release --quiet --bin speed -- ../crates/bench/out/bench
