#!/usr/bin/env python3
"""The allowance of tests/rules/household over many rents by numpy, in floats, which hold these values exactly; the same lines as `fisca run`.

numpy_rules.py COUNT BOUND: the rents 0 to COUNT - 1 where the allowance is at least BOUND. Lines are made of columns of bytes, four digits at a time from a
table, and bytes of 0 are taken out: of what was tried the fastest (a format for each line, and one format for all lines, take twice as long). Up to 10^8.
"""
import sys

import numpy

AT_ONCE = 1 << 14
# the texts of 0 to 9999: with all four digits, and with bytes of 0 ahead in place of zeros
FULL = numpy.array([b"%04d" % n for n in range(10000)], dtype="S4").view(numpy.uint32)
SHORT = numpy.array([b"%4d" % n for n in range(10000)], dtype="S4").view(numpy.uint8)
SHORT = numpy.where(SHORT == ord(" "), 0, SHORT).astype(numpy.uint8).view(numpy.uint32)
NOTHING = numpy.where(numpy.arange(10000) > 0, SHORT, 0).astype(numpy.uint32)
# the texts of 0 to 99 hundredths behind a whole number, and the tab or the end of the line
PARTS = numpy.array([(b".%02d" % n).rstrip(b"0").rstrip(b".") for n in range(100)], dtype="S4").view(numpy.uint32)


def put(wholes, columns):
    """Writes whole numbers into two columns of four bytes."""
    above = wholes // 10000
    below = wholes - 10000 * above
    columns[:, 0] = NOTHING[above]
    columns[:, 1] = numpy.where(above > 0, FULL[below], SHORT[below])


def lines(places, columns):
    """The bytes of lines: a place, and columns of numbers of two places."""
    text = numpy.zeros((len(places), 3 + 4 * len(columns)), dtype=numpy.uint32)
    put(places, text[:, 0:2])
    text.view(numpy.uint8)[:, 8] = ord("\t")
    for k, values in enumerate(columns):
        at = 3 + 4 * k
        hundredths = numpy.rint(100 * values).astype(numpy.int64)
        wholes = hundredths // 100
        put(wholes, text[:, at : at + 2])
        text[:, at + 2] = PARTS[hundredths - 100 * wholes]
        text.view(numpy.uint8)[:, 4 * at + 12] = ord("\n" if k + 1 == len(columns) else "\t")
    text = text.view(numpy.uint8)
    return text[text > 0].tobytes()


def share(month):
    return 0.25 if month >= "1980-01" else None


def housing_allowance(rents, month):
    if month > "2016-11" or month < "1980-01":
        return numpy.zeros_like(rents)
    return rents * share(month)


def main():
    count, bound = int(sys.argv[1]), int(sys.argv[2])
    rents = numpy.arange(count, dtype=numpy.float64)
    allowances = housing_allowance(rents, "2016-11")
    places = numpy.flatnonzero(allowances >= bound)
    out = sys.stdout.buffer
    for start in range(0, len(places), AT_ONCE):
        some = places[start : start + AT_ONCE]
        out.write(lines(some, (rents[some], allowances[some])))
    out.write(b"end\n")


main()
