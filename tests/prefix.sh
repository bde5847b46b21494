#!/usr/bin/env bash
# What ./build target/prefix has laid out: a program finds header and archive by pkg-config alone, where the folder was made and where it is moved to.
set -euo pipefail
cd "$(dirname "$0")/.."
.ci/need gcc pkg-config
prefix=target/prefix
[ -f "$prefix/lib/pkgconfig/mahqurith.pc" ] || {
    echo "prefix: no $prefix/lib/pkgconfig/mahqurith.pc; run ./build $prefix first" >&2
    exit 1
}
work=$(mktemp -d)
trap 'rm -rf "$work"' EXIT
cmp include/mahqurith.h "$prefix/include/mahqurith.h"
cmp target/mahqurith/libmahqurith.a "$prefix/lib/libmahqurith.a"
cmp target/mahqurith/report "$prefix/bin/report"
cat >"$work/digest.c" <<'END'
#include <mahqurith.h>
#include <stdio.h>

int main(void)
{
    uint8_t digest[MAHQURITH_DIGEST];
    if (mahqurith_sha256((const uint8_t *)"abc", 3, digest) != MAHQURITH_ACCEPTED)
        return 1;
    printf("%d.%d %02x%02x\n", MAHQURITH_VERSION_MAJOR, MAHQURITH_VERSION_MINOR, digest[0], digest[31]);
}
END

by_pkg_config() { # PREFIX
    local version
    export PKG_CONFIG_PATH=$1/lib/pkgconfig
    version=$(pkg-config --modversion mahqurith)
    # shellcheck disable=SC2046 # lists of words
    gcc -std=c11 -Wall -Wextra -Werror -o "$work/digest" "$work/digest.c" $(pkg-config --cflags --libs mahqurith)
    [ "$("$work/digest")" = "$version baad" ] || {
        echo "prefix: the program of $1 says $("$work/digest"), and pkg-config $version" >&2
        exit 1
    }
}

by_pkg_config "$PWD/$prefix"
cp -r "$prefix" "$work/moved"
by_pkg_config "$work/moved"
echo "prefix: header and archive are found by pkg-config"
