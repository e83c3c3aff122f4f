#!/usr/bin/env bash
# Fuzzes the C interface: tests/c/fuzz.c under libFuzzer, guided by the coverage of the library's own code. Usage: tests/fuzz.sh [SECONDS]; the default is 60.
#
# The toolchain makes one LLVM module of the library, and compiles it. tests/module.sh builds the library so that the module is kept, and the object must be the one in the archive, byte for
# byte. The module is then compiled with counters on its edges and comparisons, and with AddressSanitizer. Where the archive was not built so, it is built once more, which proves the crate
# hisproat again, over what rt kept of that; it is done once for an archive. The corpus, and what the run finds, are tried on the archive itself too.
#
# The corpus is tests/fuzz/corpus.txt: a line for each input, in hexadecimal digits. The seed is fixed, so a run can be repeated as far as its seconds allow.
# Needs the archive (HISPROAT_ARCHIVE, default target/staticlib/libhisproat.a) and the proved libraries, as `tests/prove.sh archive hisproat` leaves them, and python3; installs clang-14 and its
# libFuzzer where they are missing. The last line is 'fuzz.sh: N executions over a corpus of M inputs, no fault', and the exit status 0; on a fault the input is kept below target/fuzz, and the status is 1.
set -euo pipefail
cd "$(dirname "$0")/.."
work="$PWD/target/fuzz"
mkdir -p "$work"
archive="${HISPROAT_ARCHIVE:-target/staticlib/libhisproat.a}"
clang="$(dirname "$(rt doc)")/toolchain/bin/clang"

# The module of which the archive is made: kept when the archive was built, or from a build to keep it.
find_module() {
    for module in target/staticlib/hisproat "$work/hisproat"; do
        if [ -f "$module.o" ] && ar p "$archive" | cmp -s - "$module.o"; then return; fi
    done
    tests/module.sh hisproat "$work" > "$work/build.log" 2>&1 || { cat "$work/build.log"; exit 1; }
    ar p "$archive" | cmp -s - "$module.o" || { echo "fuzz.sh: the library, built again, is not $archive" >&2; exit 1; }
}

# The module with counters, and with AddressSanitizer in every function. Loops are neither unrolled nor made into vectors, so that an edge is a branch of the source.
instrument() {
    "$clang" -x ir "$module.bc" -S -emit-llvm -Xclang -disable-llvm-passes -o "$work/module.ll"
    sed -i 's/^\(define .*\) {$/\1 sanitize_address {/' "$work/module.ll"
    "$clang" -c -x ir "$work/module.ll" -O3 -fno-unroll-loops -fno-vectorize -fno-slp-vectorize -fPIC -march=x86-64 \
        -fsanitize=address -fsanitize-coverage=inline-8bit-counters,pc-table,trace-cmp -o "$work/covered.o"
}

# The target with that module, and with the archive as it is.
build() {
    local objects=()
    for part in fuzz rig judge fence; do
        clang-14 -std=c11 -O2 -g -Wall -Wextra -Werror -pedantic -Iinclude -Itests/c -c "tests/c/$part.c" -o "$work/$part.o"
        objects+=("$work/$part.o")
    done
    clang-14 -fsanitize=fuzzer,address "${objects[@]}" "$work/covered.o" -o "$work/covered"
    clang-14 -fsanitize=fuzzer "${objects[@]}" "$archive" -o "$work/shipped"
}

# The corpus, a file for each line.
unpack() {
    rm -rf "$work/corpus" "$work/found"
    mkdir -p "$work/corpus" "$work/found"
    python3 -c 'import sys
for n, line in enumerate(open(sys.argv[1])):
    open("%s/%04d" % (sys.argv[2], n), "wb").write(bytes.fromhex(line))' tests/fuzz/corpus.txt "$work/corpus"
}

# Runs a program of libFuzzer; on a fault, tells what it was, and which input has it.
run() { # LOG PROGRAM [ARGUMENT..]
    local log="$work/$1.log"
    shift
    "$@" -timeout=20 -rss_limit_mb=1024 -artifact_prefix="$work/fault-" -print_final_stats=1 > "$log" 2>&1 && return
    grep -E '^fault: |^==.*ERROR: |^SUMMARY: ' "$log" || tail -n 20 "$log"
    echo "fuzz.sh: a fault; the input: $(sed -n 's/.*Test unit written to //p' "$log")"
    exit 1
}

count() { # LOG: how many inputs were executed
    sed -n 's/^stat::number_of_executed_units: *//p' "$work/$1.log"
}

seconds="${1:-60}"
[ -f "$archive" ] || { echo "fuzz.sh: there is no $archive" >&2; exit 1; }
if ! command -v clang-14 > /dev/null || [ ! -f "$(clang-14 -print-runtime-dir)/libclang_rt.fuzzer-x86_64.a" ]; then
    tests/install.sh --no-install-recommends clang-14 libclang-rt-14-dev
fi
export ASAN_OPTIONS=detect_leaks=0:quarantine_size_mb=16
find_module
instrument
build
unpack
inputs=$(find "$work/corpus" -type f | wc -l)
run shipped "$work/shipped" -runs=0 "$work/corpus"
echo "fuzz.sh: the corpus on the archive: $(count shipped) executions"
run covered "$work/covered" -seed=1 -max_len=1024 -max_total_time="$seconds" "$work/found" "$work/corpus"
edges=$(sed -n 's/.*Loaded 1 modules *(\([0-9]*\) inline.*/\1/p' "$work/covered.log")
echo "fuzz.sh: $seconds seconds with coverage: $(count covered) executions, $(sed -n 's/.* cov: \([0-9]*\) .*/\1/p' "$work/covered.log" | tail -n 1) of $edges edges"
run found "$work/shipped" -runs=0 "$work/found"
echo "fuzz.sh: the $(find "$work/found" -type f | wc -l) inputs found, on the archive: $(count found) executions"
echo "fuzz.sh: $(($(count shipped) + $(count covered) + $(count found))) executions over a corpus of $inputs inputs, no fault"
