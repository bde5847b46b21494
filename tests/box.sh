#!/usr/bin/env bash
# The box of examples/box with the plug in an attacker's hand: stopped at every step of every call and started again, then as a process that is killed at
# random. Each guard of docs/INTEGRATION.md is taken out in turn, and the same test must notice it.
#   tests/box.sh              all of it
#   tests/box.sh GUARD ..     only that these guards are missed
set -euo pipefail
cd "$(dirname "$0")/.."
.ci/need gcc libcrypto
library=target/mahqurith
[ -f "$library/libmahqurith.a" ] || {
    echo "box: no $library/libmahqurith.a; run ./build first" >&2
    exit 1
}
built=target/box
folder=$built/kills.d
mkdir -p "$built" "$folder"

compile() { gcc -std=c11 -D_POSIX_C_SOURCE=200809L -O2 -Wall -Wextra -Wpedantic -Werror -I"$library" "$@"; }

# The box over the test's storage and chip, with all its guards or WITHOUT one.
over_faults() { # PROGRAM [FLAG]
    compile ${2:+"$2"} -o "$1" examples/box/{box,storage,marks}.c "$built/evening.o" "$built/faults.o" "$library/libmahqurith.a"
}

missed() { # GUARD
    local said status=0
    over_faults "$built/faults-without" "-DWITHOUT=$1"
    said=$(timeout 120 "$built/faults-without") || status=$?
    if [ "$status" -ne 1 ] || [[ $said != "box: this does not hold: "* ]]; then
        echo "box: WITHOUT $1 nothing is noticed: $said (status $status)" >&2
        return 1
    fi
    echo "box: without $1${said#box: this}"
}

# The box's process, killed at random: as it is; where a kill loses what was not flushed; and on a disk that lies, which must be noticed.
killed() {
    local wrapped=-Wl,--wrap=pwrite,--wrap=write,--wrap=pread,--wrap=fsync,--wrap=renameat,--wrap=unlinkat said
    examples/box/build "$built"
    compile "$wrapped" -o "$built/box-held" examples/box/*.c tests/box/held.c "$library/libmahqurith.a" -lcrypto
    compile -pthread -o "$built/kills" tests/box/kills.c "$built/evening.o" examples/box/{chip,wire}.c "$library/libmahqurith.a" -lcrypto
    timeout 120 "$built/kills" "$PWD/$built/box" "$folder" 200
    timeout 120 "$built/kills" "$PWD/$built/box-held" "$folder" 200
    if said=$(FORGET=1 timeout 120 "$built/kills" "$PWD/$built/box-held" "$folder" 200) || [[ $said != "box: this does not hold: "* ]]; then
        echo "box: a disk that lies is not noticed: $said" >&2
        return 1
    fi
    echo "box: on a disk that lies${said#box: this}"
}

compile -c -o "$built/evening.o" tests/box/evening.c
compile -c -o "$built/faults.o" tests/box/faults.c
guards=("$@")
if [ $# -eq 0 ]; then
    over_faults "$built/faults"
    "$built/faults"
    killed
    mapfile -t guards < <(sed -n '/^enum guard/,/^}/s/^    \([A-Z][A-Z_0-9]*\),\{0,1\}$/\1/p' examples/box/guards.h | grep -vx NONE)
    [ "${#guards[@]}" -ge 30 ] || { echo "box: examples/box/guards.h names ${#guards[@]} guards only" >&2; exit 1; }
fi
for guard in "${guards[@]}"; do
    missed "$guard"
done
echo "box: each of ${#guards[@]} guards is missed when it is taken out"
