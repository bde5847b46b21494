#!/usr/bin/env bash
# The morning report: document 02's example byte for byte, a file for each of its readings, and the library's report against the second program's, on
# the same files by chance.
#   tests/report.sh                               the gate's run
#   tests/report.sh SEED ... [--files N]          other files by chance, as many as one likes
# MAHQURITH_REPORT names another program than the one that ./build made.
set -euo pipefail
cd "$(dirname "$0")/.."
.ci/need python3 cargo

export MAHQURITH_LIB=$PWD/target/mahqurith
program=${MAHQURITH_REPORT:-$MAHQURITH_LIB/report}
[ -x "$program" ] || {
    echo "report: no $program; run ./build first" >&2
    exit 1
}
python3 tests/report/cases.py "$program"
cd peer
exec cargo run --offline --quiet --release -j1 --bin reports -- "$program" "$@"
