#!/usr/bin/env bash
# The program ranges while its reads and writes are interrupted, cut short or fail, and called with arguments: what comes out, and the exit status.
# checker/failing_calls.py, with tests/failing_calls.c loaded before the C library.
cd "$(dirname "${BASH_SOURCE[0]}")/.." || exit 2
folder=$(mktemp -d) || exit 2
trap 'rm -rf "$folder"' EXIT
if ! gcc -shared -fPIC -O1 -Wall -Wextra -Werror -o "$folder/failing_calls.so" tests/failing_calls.c; then
    echo "0 passed, 1 failed"
    exit 1
fi
python3 checker/failing_calls.py target/bin/ranges "$folder/failing_calls.so"
