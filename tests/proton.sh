#!/usr/bin/env bash
# The library's reading and writing of bodies beside an independent implementation: Qpid Proton's codec, from Debian (tests/c/proton.c tells how).
# Usage: tests/proton.sh [SEED [ROUNDS]]; the same seed gives the same run. Needs the archive (HISPROAT_ARCHIVE, default target/staticlib/libhisproat.a, which
# is built by rt where it is missing). Installs gcc and libqpid-proton11-dev where they are missing.
# The last line is 'proton.sh: N bodies, M values, K named disagreements, 0 wrong', and the exit status 0, where the two differ only as a rule names.
set -euo pipefail
cd "$(dirname "$0")/.."
archive="${HISPROAT_ARCHIVE:-target/staticlib/libhisproat.a}"
work=target/c
mkdir -p "$work"
missing=()
command -v gcc > /dev/null || missing+=(gcc libc6-dev)
[ -f /usr/include/proton/codec.h ] || missing+=(libqpid-proton11-dev)
if [ "${#missing[@]}" -gt 0 ]; then
    tests/install.sh --no-install-recommends "${missing[@]}"
fi
if [ -z "${HISPROAT_ARCHIVE:-}" ] && [ ! -f "$archive" ]; then
    tests/prove.sh archive hisproat
fi
gcc -std=c11 -O2 -Wall -Wextra -Werror -pedantic -Iinclude -Itests/c tests/c/proton.c tests/c/proton_bodies.c "$archive" -lqpid-proton -o "$work/proton"
"$work/proton" "$@" | sed '$s/^/proton.sh: /'
