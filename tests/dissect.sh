#!/usr/bin/env bash
# Every frame that the library writes goes through Wireshark's AMQP 1.0 dissector: those of the recorded lists and, where the Rust's folder and cargo are there, those of a
# whole comparison with the Rust (tests/oracle.sh live), each once. A few minutes; tests/dissect.py tells what is held, and installs tshark where it is missing.
set -euo pipefail
cd "$(dirname "$0")/.."
rm -f target/frames.txt
bash tests/oracle.sh live
python3 tests/dissect.py
if [ -f target/frames.txt ]; then
    python3 tests/dissect.py target/frames.txt
fi
