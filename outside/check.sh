#!/usr/bin/env bash
# bash outside/check.sh: the outside program's own tests, and that the stored vectors and the small plant's list are what it writes.
set -euo pipefail
cd "$(dirname "$0")/.."
python3 -B outside/test_outside.py
for stream in sheets tests listings tables; do
    for part in stdin stdout; do
        python3 -B outside/vectors.py "$stream" "$part" | cmp - "crates/replay_$stream/$part"
    done
done
python3 -B outside/listing.py < crates/leading/stdin | cmp - crates/leading/stdout
echo "outside: the stored vectors and the small plant's list are its own"
