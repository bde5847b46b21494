#!/usr/bin/env bash
# The Rust binding's tests and the examples in its documentation.
set -euo pipefail
cd "$(dirname "$0")/../bindings/rust"
cargo test --offline --quiet -j1
