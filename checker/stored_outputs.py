"""Checks that the files stored in program crates are those that the checker makes now.

    python3 checker/stored_outputs.py crates/sheet_cases crates/row_examples ..

The last part of a folder's path names the program. A file that is missing or differs fails; the
last line is `N passed, M failed`.
"""

import pathlib
import sys

import bench_evaluate
import formula_program
import library_calls
import listing
import row_cases
import sheet_cases
import stored

MAKERS = {
    "sheet_cases": sheet_cases.files,
    "row_examples": row_cases.files,
    "ranges": listing.files,
    "formula": formula_program.files,
    "library_calls": library_calls.files,
    "bench_evaluate": bench_evaluate.files,
}


def main(folders) -> int:
    passed = failed = 0
    for folder in folders:
        for path, content in MAKERS[pathlib.Path(folder).name]().items():
            if stored.agrees(folder, path, content):
                passed += 1
            else:
                failed += 1
                print(f"{folder}/{path} is not what the checker makes")
    print(f"{passed} passed, {failed} failed")
    return 1 if failed else 0


if __name__ == "__main__":
    sys.exit(main(sys.argv[1:]))
