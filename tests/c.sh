#!/usr/bin/env bash
# Tests of the C side: the headers as C and as C++, the example, that the archive needs no other code, the tests through C (under valgrind too), the stack, that a tie costs the same however many there are, the frame
# reader, the instructions of a width, a bound on those of reading, and the example hub against its stored output and with damaged pads.
# Usage: tests/c.sh [ARCHIVE]; without ARCHIVE the library is built by rt. Installs gcc, g++ and valgrind where they are missing.
# The last line is 'c.sh: N parts passed', and the exit status 0, where nothing was wrong.
set -euo pipefail
archive="$(realpath "${1:-/dev/null}")"
cd "$(dirname "$0")/.."
for tool in gcc g++ valgrind; do
    command -v "$tool" > /dev/null || tests/install.sh "$tool" libc6-dev
done
work=target/c
mkdir -p "$work"
if [ $# -eq 0 ]; then
    archive=target/staticlib/libhisproat.a
    tests/prove.sh archive hisproat
fi
reader=target/staticlib/libframe_reader.a
tests/prove.sh archive frame_reader
warnings=(-Wall -Wextra -Werror -pedantic -Iinclude)
parts=0

passed() { # NAME
    echo "c.sh: $1"
    parts=$((parts + 1))
}

# each header alone, and twice
for header in hisproat hisproat_frame_reader; do
    printf '#include "%s.h"\n#include "%s.h"\n' "$header" "$header" > "$work/alone.c"
    gcc -std=c11 "${warnings[@]}" -c "$work/alone.c" -o "$work/alone.o"
    g++ -std=c++11 "${warnings[@]}" -x c++ -c "$work/alone.c" -o "$work/alone.o"
done
passed "the headers are C11 and C++11"

# the example in the header's first comment
sed -n '/^ \* EXAMPLE/,/^ \* End of the example/s/^ \*     //p' include/hisproat.h > "$work/example.c"
grep -q hisproat_on_incoming "$work/example.c"
gcc -std=c11 "${warnings[@]}" "$work/example.c" tests/c/example.c "$archive" -o "$work/example"
"$work/example"
passed "the header's example does what it says"

needed=$(nm -u "$archive" | awk '$1 == "U" { print $2 }')
[ -z "$needed" ] || { echo "c.sh: the archive needs" $needed >&2; exit 1; }
passed "the archive needs nothing from outside"

gcc -std=c11 -O2 "${warnings[@]}" -Itests/c tests/c/{crossing,rig,judge,fence,sizes,fresh,ties,state_bytes,altered,many}.c "$archive" -o "$work/crossing"
gcc -std=c11 -O2 "${warnings[@]}" examples/hub.c "$archive" -o "$work/hub"
gcc -std=c11 -O2 "${warnings[@]}" tests/c/speed.c "$archive" -pthread -o "$work/speed"
passed "the tests, the hub and the measuring program are built"

# a call that does not end, on tables that were altered, would run for ever
timeout 600 "$work/crossing" all
passed "the library through C"

valgrind --error-exitcode=1 -q "$work/crossing" | tail -n 1
passed "the same under valgrind"

stated=$(sed -n 's/.*The most stack that was measured is \([0-9,]*\) bytes.*/\1/p' include/hisproat.h | tr -d ,)
stack=$("$work/speed" stack)
[ "$stack" -le "${stated:-0}" ] || { echo "c.sh: a call uses $stack bytes of stack, and the header says $stated" >&2; exit 1; }
passed "no call uses more stack than the header says: $stack bytes"

instructions() { # OPERATION COUNT: of one round, set-up left out
    local few many
    few=$(valgrind --tool=callgrind --callgrind-out-file=/dev/null "$work/speed" "$@" 10 2>&1 > /dev/null | sed -n 's/.*Collected *: *\([0-9]*\).*/\1/p')
    many=$(valgrind --tool=callgrind --callgrind-out-file=/dev/null "$work/speed" "$@" 110 2>&1 > /dev/null | sed -n 's/.*Collected *: *\([0-9]*\).*/\1/p')
    echo $(((many - few) / 100))
}

# a list of ties that is gone through would take thousands
costs=
for operation in tie retie untie free; do
    few=$(instructions "$operation" 256)
    many=$(instructions "$operation" 65536)
    [ "$few" -gt 100 ] && [ "$many" -le $((few + 16)) ] || { echo "c.sh: $operation takes $few instructions with 256 ties, and $many with 65,536" >&2; exit 1; }
    costs="$costs $operation $many"
done
passed "ties take the same instructions with 256 and with 65,536 of them:$costs"

gcc -std=c11 -O2 "${warnings[@]}" tests/c/frame_reader.c "$reader" "$archive" -o "$work/frame_reader"
"$work/frame_reader"
passed "the frame reader, beside the engine"

python3 tests/width.py "$reader" "$archive"
passed "a width is the few instructions that the document shows"

# the bounds on instructions, and that they can fail
gcc -std=c11 -O2 "${warnings[@]}" tests/c/linear.c "$reader" "$archive" -o "$work/linear"
tests/prove.sh program bench
python3 tests/linear.py "$work/linear" target/bin/bench
if python3 tests/linear.py "$work/linear" target/bin/bench slow > "$work/slow.log" 2>&1; then
    echo "c.sh: the bounds do not notice a reader that goes over what is claimed" >&2
    exit 1
fi
grep -q 'are over the bound of' "$work/slow.log"
grep -q 'are over a tenth more than' "$work/slow.log"
passed "reading takes instructions for bytes, and none for claims"

"$work/hub" examples/pads.amqp | diff - examples/hub.out
valgrind --error-exitcode=1 -q "$work/hub" examples/pads.amqp | diff - examples/hub.out
passed "the hub counts what its stored output has"

python3 tests/bad_pads.py "$work/hub"
passed "a pad that is damaged ends its own line only"

echo "c.sh: $parts parts passed"
