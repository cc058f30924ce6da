#!/usr/bin/env bash
# bash host/install.sh ARCHIVE PREFIX [DESTDIR]: the header, the archive, leading.pc
# and the manual to PREFIX, or to DESTDIR/PREFIX for a package that goes to PREFIX
# later. Proves and builds nothing; `make install` does that first.
set -euo pipefail
cd "$(dirname "$0")/.."
archive=$1
prefix=$2
to=${3:-}$prefix
calls=(leading_list leading_list_weights leading_held leading_test leading_reduce leading_write leading_read leading_version)

fail() { echo "install: $*" >&2; exit 1; }

[ "${prefix:0:1}" = / ] || fail "the prefix is no absolute path: $prefix"
[ -f "$archive" ] || fail "no such archive: $archive"
version=$(sed -n 's/^#define LEADING_VERSION "\(.*\)"$/\1/p' include/leading.h)
[ -n "$version" ] || fail "no version in include/leading.h"
pc=$(< include/leading.pc.in)
pc=${pc//@PREFIX@/"$prefix"}
pc=${pc//@VERSION@/"$version"}

umask 022
mkdir -p "$to/include" "$to/lib/pkgconfig" "$to/share/man/man3"
install -m 644 include/leading.h "$to/include/leading.h"
install -m 644 "$archive" "$to/lib/libleading.a"
printf '%s\n' "$pc" > "$to/lib/pkgconfig/leading.pc"
install -m 644 man/leading.3 "$to/share/man/man3/leading.3"
for call in "${calls[@]}"; do
    echo '.so man3/leading.3' > "$to/share/man/man3/$call.3"
done
echo "install: leading $version in $to"
