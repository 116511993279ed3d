#!/usr/bin/env python3
"""Times batches and reads through ./shop run, in processor seconds of the program.

usage: bench/batches.py rows      what a batch of 1,000 operations costs over 1,000, 10,000 and 100,000 rows
       bench/batches.py bodies    operations a second, beside the reading of the same bodies by serde_json alone
       bench/batches.py heads     reads of a row a second, beside the reading of the same heads by httparse alone

A batch that is read and no more is the same list as the member of an object: its JSON is read, and it is refused by its shape at
once. A head that is read and no more has a target of the same length that no path is: its answer is a short refusal. Each time is
the best of three, less what the program needs for the requests before those that are measured.
"""
import random
import sys

from timing import build, post, seconds_of


def product(number, gross):
    return b'{"op":"upsert","entity":"product","id":"%032x","fields":{"number":"N%d","gross":%d}}' % (number, number, gross)


def batch(numbers, gross=100):
    return b"[" + b",".join(product(number, gross) for number in numbers) + b"]"


def filled(rows):
    return b"".join(post(batch(range(first, first + 1000))) for first in range(1, rows + 1, 1000))


def rules(numbers, priority):
    return b"[" + b",".join(b'{"op":"upsert","entity":"rule","id":"%032x","fields":{"name":"R","priority":%d}}' % (number, priority) for number in numbers) + b"]"


def time_rows():
    source, before = random.Random(7), None
    for rows in (1_000, 10_000, 100_000):
        base = b"".join(post(rules(range(first, first + 1000), 1)) for first in range(1, rows + 1, 1000))
        changes = b"".join(post(rules(source.sample(range(1, rows + 1), 1000), 2)) for _ in range(100))
        cost = (seconds_of(base + changes) - seconds_of(base)) / 100
        print("%7d rows: %.2f ms for a batch of 1,000 changes%s" % (rows, cost * 1e3, "" if before is None else ", ratio %.2f" % (cost / before)))
        before = cost


def time_bodies():
    bodies = [batch(range(first, first + 1000), 300) for first in range(1, 50_001, 1000)]
    base = filled(50_000)
    start = seconds_of(base)
    done = seconds_of(base + b"".join(map(post, bodies))) - start
    read = seconds_of(base + b"".join(post(b'{"a":' + body + b"}") for body in bodies)) - start
    size, operations = sum(map(len, bodies)), 1000 * len(bodies)
    print("%d operations in bodies of %d bytes: %.3f s, %.0f a second" % (operations, size, done, operations / done))
    print("the same bodies read by serde_json alone: %.3f s, %.0f a second, %.1f times as fast" % (read, operations / read, done / read))


def time_heads():
    fields = b" HTTP/1.1\r\nHost: 127.0.0.1:8080\r\nUser-Agent: curl/8.5.0\r\nAccept: */*\r\n\r\n"
    base, count = filled(1000), 200_000
    start = seconds_of(base)
    shown = seconds_of(base + b"".join(b"GET /row/product/%032x" % (number % 1000 + 1) + fields for number in range(count))) - start
    read = seconds_of(base + b"".join(b"GET /raw/product/%032x" % (number % 1000 + 1) + fields for number in range(count))) - start
    print("%d reads of a row: %.3f s, %.0f a second" % (count, shown, count / shown))
    print("the same heads read by httparse, and refused: %.3f s, %.0f a second, %.1f times as fast" % (read, count / read, shown / read))


if len(sys.argv) != 2 or sys.argv[1] not in ("rows", "bodies", "heads"):
    sys.exit(__doc__)
build()
{"rows": time_rows, "bodies": time_bodies, "heads": time_heads}[sys.argv[1]]()
