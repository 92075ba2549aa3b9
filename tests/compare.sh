#!/usr/bin/env bash
# The program ranges, as tools/build built it, prints what another implementation's samples say, what sheets of at most 6 inputs and 24 steps have printed
# under those limits, and what the checker says for generated sheets: valid, extreme and damaged.
cd "$(dirname "${BASH_SOURCE[0]}")/.." || exit 2
exec python3 checker/compare.py target/bin/ranges
