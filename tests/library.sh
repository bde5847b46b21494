#!/usr/bin/env bash
# The library against the second program: the same calls on both, through the C interface, and all of both outcomes compared.
#   tests/library.sh                              the gate's run
#   tests/library.sh SEED ... [--calls N]         any other, as long as one likes
set -euo pipefail
cd "$(dirname "$0")/.."

export MAHQURITH_LIB=$PWD/target/mahqurith
[ -f "$MAHQURITH_LIB/libmahqurith.a" ] || {
    echo "library: no $MAHQURITH_LIB/libmahqurith.a; run ./build first" >&2
    exit 1
}
[ $# -gt 0 ] || set -- 1 2 3 --calls 300000
cd peer
exec cargo run --offline --quiet --release -j1 --bin compare -- "$@"
