#!/usr/bin/env bash
# What docs/INTEGRATION.md says that a box's firmware has to give the archive: `memcpy` and `memset`, and so much stack for the calls of a keeper, a
# desk and a messenger.
set -euo pipefail
cd "$(dirname "$0")/.."
.ci/need gcc ar
library=target/mahqurith
stack=11000
[ -f "$library/libmahqurith.a" ] || {
    echo "firmware: no $library/libmahqurith.a; run ./build first" >&2
    exit 1
}
names=$(nm -u "$library/libmahqurith.a" | awk '$1 == "U" { print $2 }' | sort -u | xargs)
[ "$names" = "memcpy memset" ] || {
    echo "firmware: the archive asks for: $names" >&2
    exit 1
}

built=target/firmware
mkdir -p "$built"
gcc -std=c11 -O2 -Wall -Wextra -Werror -I"$library" -o "$built/calls" bench/calls.c bench/scene.c "$library/libmahqurith.a" -lpthread
most=0
for call in wake initialise-founding initialise-joining new append append-many-20 read append-and-read finalise activate bytes-to-check verdict \
    make-bundle make-bundle-14 store-append store-read sha256; do
    # Bound before the call, so that none of the stack is the loader's.
    taken=$(LD_BIND_NOW=1 "$built/calls" stack "$call" 63)
    [ "$taken" -le "$stack" ] || {
        echo "firmware: $call takes $taken bytes of stack, over $stack" >&2
        exit 1
    }
    [ "$taken" -le "$most" ] || most=$taken
done
echo "firmware: the archive asks for $names; no call took more than $most bytes of stack"
