#!/usr/bin/env python3
"""ast_parse.py FILE: prints the nanoseconds that CPython's `ast.parse` takes for the text of a file."""
import ast
import sys
import time


def main(path):
    with open(path, encoding="utf-8") as file:
        text = file.read()
    start = time.perf_counter_ns()
    ast.parse(text)
    print(time.perf_counter_ns() - start)


if __name__ == "__main__":
    main(sys.argv[1])
