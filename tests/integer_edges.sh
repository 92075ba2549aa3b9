#!/usr/bin/env bash
# What the program integer_edges must write is what checker/integer_edges.py makes today. (That the program writes it, rt ci tests.)
cd "$(dirname "${BASH_SOURCE[0]}")/.." || exit 2
if python3 checker/integer_edges.py | cmp - crates/integer_edges/stdout; then
    echo "1 passed, 0 failed"
else
    echo "0 passed, 1 failed"
    exit 1
fi
