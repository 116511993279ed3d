#!/usr/bin/env python3
"""Prints what questions about categories cost, and what keeping their index in step costs, in processor time.

usage: bench/trees.py

First a look-up among 1,000, 10,000 and 100,000 categories, and a write of a tax, which no index looks at, among as many. Then a
category that is moved with 1, 10, 100 and 1,000 below it. A cost is the time of a run with so many further requests, less that of
a run without them, divided by their number: each time the best of three, with standard output thrown away.
"""
from timing import build, post, seconds_of

SIZES = [1_000, 10_000, 100_000]
BELOW = [1, 10, 100, 1_000]
MORE = 4_000
MOVES = 400


def upsert(entity, number, fields):
    return b'{"op":"upsert","entity":"%s","id":"%032x","fields":{%s}}' % (entity, number, fields)


def batches(operations):
    return b"".join(post(b"[" + b",".join(operations[at:at + 1000]) + b"]") for at in range(0, len(operations), 1000))


def spread(number):
    """An id of its own anywhere among 128 bits."""
    return number * 0x9E3779B97F4A7C15F39CC0605CEDC835 % 2**128


def child_of(parent):
    return b'"parent":"%032x"' % parent


def forest(count):
    """Categories, each ten of them below one, four levels deep at most."""
    return batches([upsert(b"category", spread(at), child_of(spread(at // 10)) if at % 1000 > 9 else b"") for at in range(1, count + 1)])


def cost_of(start, further, count):
    return (seconds_of(start + further) - seconds_of(start)) / count * 1e6


def main():
    build()
    for size in SIZES:
        start = forest(size)
        looks = b"".join(b"GET /category/%032x/tree HTTP/1.1\r\n\r\n" % spread(at % size + 1) for at in range(10 * MORE))
        taxes = b"".join(post(b"[" + upsert(b"tax", at % 100 + 1, b'"name":"T","rate":%d' % (at % 9000)) + b"]") for at in range(MORE))
        print("%7d categories: a look-up %.2f us, a write of a tax %.1f us" % (size, cost_of(start, looks, 10 * MORE), cost_of(start, taxes, MORE)))
    for below in BELOW:
        start = forest(10_000) + batches(
            [upsert(b"category", 1, b""), upsert(b"category", 2, b""), upsert(b"category", 3, child_of(1))]
            + [upsert(b"category", 3 + at, child_of(3 + (at - 1) // 10)) for at in range(1, below + 1)])
        moves = b"".join(post(b"[" + upsert(b"category", 3, child_of(2 - at % 2)) + b"]") for at in range(MOVES))
        print("%7d below: a move %.1f us" % (below, cost_of(start, moves, MOVES)))


main()
