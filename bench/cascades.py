#!/usr/bin/env python3
"""Prints what it costs to plan a delete of a category with many below it, and a new parent for one, and the ratios.

usage: bench/cascades.py [--ids order|random] [--instructions]

Each batch has the operation that is timed, and then one that is refused, so that the whole is planned and nothing is changed. A
cost is the processor time of a run of ./shop over the rows and then some such batches, less that of a run over the rows alone,
divided by the number of batches: the best of three runs each, with standard output thrown away. Rows are wide, all of them
children of one category, or a tree in which each has ten children. With --instructions it counts instructions by valgrind in place
of times, of one such batch.
"""
import argparse
import random

from timing import build, instructions_of, post, seconds_of

SIZES = {1_000: 200, 10_000: 20, 100_000: 4}
FIRST = 3


def category(number, parent=None):
    fields = b"" if parent is None else b'"parent":"%032x"' % parent
    return b'{"op":"upsert","entity":"category","id":"%032x","fields":{%s}}' % (number, fields)


def delete(number):
    return b'{"op":"delete","entity":"category","id":"%032x"}' % number


def rows_below(size, children, order):
    """Two categories, and so many below the second: each has as many children, or the second has them all."""
    ids = list(range(FIRST, FIRST + size))
    if order == "random":
        source = random.Random(7)
        ids = sorted(source.sample(range(FIRST, 2**100), size))
        source.shuffle(ids)
    above = [2] + ids
    writes = [category(1), category(2)]
    for at, number in enumerate(ids):
        writes.append(category(number, 2 if children is None else above[at // children]))
    return b"".join(post(b"[" + b",".join(writes[at:at + 1000]) + b"]") for at in range(0, len(writes), 1000))


def main():
    options = argparse.ArgumentParser(usage=__doc__)
    options.add_argument("--ids", choices=["order", "random"], default="order")
    options.add_argument("--instructions", action="store_true")
    options = options.parse_args()
    build()
    refused = delete(2**120)
    for shape, children in (("wide", None), ("a tree", 10)):
        for what, operation in (("a delete of the category above them", delete(2)), ("a new parent for it", category(2, 1))):
            before = None
            for size, count in SIZES.items():
                base = rows_below(size, children, options.ids)
                batch = post(b"[" + operation + b"," + refused + b"]")
                if options.instructions:
                    cost = instructions_of(base + batch) - instructions_of(base)
                    shown = "%.1f million instructions, %d a row" % (cost / 1e6, cost / size)
                else:
                    cost = (seconds_of(base + batch * count) - seconds_of(base)) / count
                    shown = "%.3f ms" % (cost * 1e3)
                ratio = "" if before is None else ", ratio %.1f" % (cost / before)
                print("%s, %6d rows, %s: %s%s" % (what, size, shape, shown, ratio), flush=True)
                before = cost


main()
