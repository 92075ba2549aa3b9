#!/usr/bin/env bash
# What the programs below read and must write is what the checker makes today. (That they write it, rt ci tests.)
cd "$(dirname "${BASH_SOURCE[0]}")/.." || exit 2
exec python3 checker/stored_outputs.py crates/sheet_cases crates/row_examples crates/ranges crates/formula crates/library_calls crates/bench_evaluate
