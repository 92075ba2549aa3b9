#!/usr/bin/env bash
# The checker's own tests: the specification's examples and listing, demand 3 in fractions, and that each fault put in on purpose is noticed.
cd "$(dirname "${BASH_SOURCE[0]}")/.." || exit 2
report=$(mktemp) || exit 2
python3 checker/test_checker.py 2>"$report"
status=$?
[ "$status" -eq 0 ] || cat "$report" >&2
rm -f "$report"
exit "$status"
