#!/usr/bin/env bash
# The Rust's recorded answers (tests/oracle.txt) are replayed against the archive. Usage: tests/oracle.sh [live]; with `live`, and where the Rust's folder and cargo are there, the Rust
# itself is run beside the archive as well, and the recording must be what it answers. The seeds of its random lists are fixed. What the archive writes is left in target/frames.txt, for
# tests/dissect.sh. oracle/README.md tells about all this.
# Needs gcc and the archive (HISPROAT_ARCHIVE, default target/staticlib/libhisproat.a); bin/oracle says what `live` needs.
set -euo pipefail
cd "$(dirname "$0")/.."
archive="${HISPROAT_ARCHIVE:-target/staticlib/libhisproat.a}"
[ -f "$archive" ] || { echo "oracle.sh: no archive $archive" >&2; exit 1; }
mkdir -p target/c
gcc -std=c11 -O2 -Wall -Wextra -Werror -Iinclude tests/c/replay.c "$archive" -o target/c/replay
replayed=$(target/c/replay tests/oracle.txt) || { echo "$replayed"; exit 1; }
echo "recorded answers: $replayed"
[ "${1:-}" = live ] || exit 0
start=$(date +%s)
if [ ! -f "${RUST_SOURCE:-../shared/docs/src}/INDEX.md" ]; then
    echo "the Rust is not at hand: no live comparison"
elif ! command -v cargo > /dev/null; then
    echo "cargo is not at hand: no live comparison"
else
    bin/oracle harness check --frames target/frames.txt
    bin/oracle harness record | cmp - tests/oracle.txt
    echo "live comparison: $(( $(date +%s) - start )) seconds"
fi
