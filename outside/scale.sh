#!/usr/bin/env bash
# bash outside/scale.sh ARCHIVE [--cases N] [--sheets N] [--calls N] [--tables N] [--seed S] [--first N]:
# the archive against the outside program. Any difference fails it.
# IMPOSTOR=1 to 84 puts that wrong call of impostor.c in the archive's place.
set -euo pipefail
cd "$(dirname "$0")/.."
archive=$1
shift
out=target/scale
sources=(outside/replay.c)
strict=(-std=c11 -Wall -Wextra -Wpedantic -Wconversion -Werror -O2 -Iinclude)
if [ -n "${IMPOSTOR:-}" ]; then
    sources+=(outside/impostor.c)
    strict+=(-DIMPOSTOR="$IMPOSTOR" -Wl,--wrap=leading_{list,list_weights,test,reduce,write,read})
fi
mkdir -p "$out"
cc=$(command -v gcc || command -v clang) || { echo "scale: no C compiler"; exit 1; }
"$cc" "${strict[@]}" "${sources[@]}" "$archive" -o "$out/replay${IMPOSTOR:-}"
exec python3 -B outside/scale.py "$out/replay${IMPOSTOR:-}" "$@"
