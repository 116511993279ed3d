#!/usr/bin/env python3
"""Prints reads and writes a second through a program of the shop, and how many blocks of memory each request takes.

usage: bench/requests.py [PROGRAM]

Each request is sent with curl's fields over 200 products with their translations: reads of a product, lists of products, heads of
the same length whose path is none, and writes of one translation. A time is the processor time of 200,000 requests (20,000 writes),
the least of three runs, less that of the first batch. Blocks are those that valgrind counts (malloc and realloc), as the difference
of 300 and 100 requests.
"""
import os
import re
import subprocess
import sys
import tempfile

TOP = os.path.dirname(os.path.dirname(os.path.abspath(__file__)))
FIELDS = b"Host: 127.0.0.1:8080\r\nUser-Agent: curl/8.5.0\r\nAccept: */*\r\n"
PRODUCTS = 200


def post(body):
    return b"POST /sync HTTP/1.1\r\n%sContent-Length: %d\r\n\r\n%s" % (FIELDS, len(body), body)


def translation(number, name):
    return b'{"op":"upsert","entity":"product_translation","id":"%032x","second":"%032x","fields":{"name":"%s","description":"some longer text of a product"}}' % (number + 16, 1, name)


def filled():
    operations = [b'{"op":"upsert","entity":"language","id":"%032x","fields":{"name":"L"}}' % 1]
    operations += [b'{"op":"upsert","entity":"product","id":"%032x","fields":{"number":"N%d","gross":%d,"net":100}}' % (n + 16, n, n) for n in range(PRODUCTS)]
    operations += [translation(n, b"Product") for n in range(PRODUCTS)]
    return post(b"[" + b",".join(operations) + b"]")


def get(path):
    return b"GET %s HTTP/1.1\r\n%s\r\n" % (path, FIELDS)


KINDS = {
    "reads": (200_000, lambda n: get(b"/row/product/%032x" % (16 + n % PRODUCTS))),
    "lists": (200_000, lambda n: get(b"/list/product/%032x/%032x" % (16 + n % PRODUCTS, 0))),
    "heads": (200_000, lambda n: get(b"/rox/product/%032x" % (16 + n % PRODUCTS))),
    "writes": (20_000, lambda n: post(b"[" + translation(n % PRODUCTS, b"Product %d" % n) + b"]")),
}


def stream(kind, count):
    return filled() + b"".join(KINDS[kind][1](n) for n in range(count))


def run(command, text):
    """The processor time of the command over the text, and what it says of itself."""
    with tempfile.NamedTemporaryFile() as file, tempfile.TemporaryFile() as said:
        file.write(text)
        file.flush()
        with open(file.name, "rb") as source, open(os.devnull, "wb") as sink:
            child = subprocess.Popen(command, stdin=source, stdout=sink, stderr=said)
            _, status, usage = os.wait4(child.pid, 0)
        if status:
            sys.exit("status %d" % os.waitstatus_to_exitcode(status))
        said.seek(0)
        return usage.ru_utime + usage.ru_stime, said.read().decode()


def blocks(program, kind, count):
    said = run(["valgrind", program, "run"], stream(kind, count))[1]
    return int(re.search(r"total heap usage: ([0-9,]+) allocs", said).group(1).replace(",", ""))


def main():
    program = sys.argv[1] if len(sys.argv) > 1 else os.path.join(TOP, "shop")
    first = min(run([program, "run"], filled())[0] for _ in range(3))
    for kind, (count, _) in KINDS.items():
        text = stream(kind, count)
        seconds = max(min(run([program, "run"], text)[0] for _ in range(3)) - first, 1e-9)
        each = (blocks(program, kind, 300) - blocks(program, kind, 100)) / 200
        print("%-7s %9.0f a second, %5.2f microseconds each, %5.1f blocks of memory each" % (kind, count / seconds, seconds / count * 1e6, each))


if __name__ == "__main__":
    main()
