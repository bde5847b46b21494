#!/usr/bin/env bash
# The header as C11 and as C++17 with all warnings as errors; its sizes, offsets, constants and meanings against the library; null pointers
# where a length is 0; records that cannot be written.
set -euo pipefail
cd "$(dirname "$0")/.."
.ci/need gcc g++ python3
library=target/mahqurith
[ -f "$library/libmahqurith.a" ] || {
    echo "header: no $library/libmahqurith.a; run ./build first" >&2
    exit 1
}
cmp include/mahqurith.h "$library/mahqurith.h"
built=target/header
mkdir -p "$built"
warnings="-Wall -Wextra -Wpedantic -Wconversion -Wshadow -Wstrict-aliasing -Werror"
python3 tests/header/numbers.py >"$built/numbers.c"

# shellcheck disable=SC2086 # lists of words
for file in "$built/numbers.c" tests/header/layout.c tests/header/null.c tests/header/kept.c; do
    program=$built/$(basename "$file" .c)
    gcc -std=c11 $warnings -Wstrict-prototypes -I"$library" -o "$program" "$file" "$library/libmahqurith.a"
    g++ -x c++ -std=c++17 $warnings -I"$library" -o "$program-cpp" "$file" -x none "$library/libmahqurith.a"
    "$program"
    "$program-cpp"
done
