#!/usr/bin/env bash
# The second program's own tests: its rules pass its trials, and each of 01's slips, put into a copy of them, is caught.
set -euo pipefail
cd "$(dirname "$0")/../peer"
cargo test --offline --quiet -j1
