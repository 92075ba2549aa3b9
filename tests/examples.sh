#!/usr/bin/env bash
# Each sheet and each formula of examples/: the stored output is what the checker makes of it, and what the program prints, listing or refusal, and both end
# with status 0.
cd "$(dirname "${BASH_SOURCE[0]}")/.." || exit 2
set -o pipefail
passed=0
failed=0

# same STORED WHAT COMMAND..: what the command prints, with standard input as it is, is the stored file, and its status is 0
same() {
    local stored=$1 what=$2
    shift 2
    if "$@" | cmp -s - "$stored"; then passed=$((passed + 1)); else failed=$((failed + 1)); echo "$stored is not what $what"; fi
}

for sheet in examples/*.sheet; do
    stored=${sheet%.sheet}.out
    same "$stored" "the checker makes" python3 checker/listing.py <"$sheet"
    same "$stored" "the program prints" target/bin/ranges <"$sheet"
done
for formula in examples/*.formula; do
    stored=${formula%.formula}.sheet
    [ -e "$stored" ] || stored=${formula%.formula}.out
    same "$stored" "the checker makes" xargs python3 checker/formula_program.py <"$formula"
    same "$stored" "the program prints" xargs target/bin/formula <"$formula"
done
echo "$passed passed, $failed failed"
[ "$failed" -eq 0 ] && [ "$passed" -gt 0 ]
