#!/usr/bin/env python3
"""Times ./shop run on streams of requests, and prints how the time grows.

usage: bench/stream.py [--order random|ascending|descending] [--heads plain|curl] [--keep FOLDER]
       bench/stream.py --bodies

The first form has one write and one read for each of half as many different ids. A time is the best of three runs, in
seconds of the wall clock, with standard output thrown away. A ratio near 10 says that the cost grows with the length of
the stream; below 10, that starting the program still shows. --heads curl has the fields that curl sends.

The second form sends 64 reads, each with a body of 1 MiB, through a pipe in pieces of 1 KiB, and beside it the same bytes
through `cat`.
"""
import argparse
import os
import random
import subprocess
import sys
import tempfile
import time

TOP = os.path.dirname(os.path.dirname(os.path.abspath(__file__)))
SHOP = os.path.join(TOP, "shop")
BODY = '[{"op":"upsert","entity":"category","id":"%s","fields":{}}]'
FIELDS = {"plain": "", "curl": "Host: 127.0.0.1:8080\r\nUser-Agent: curl/8.5.0\r\nAccept: */*\r\n"}
JSON = {"plain": "", "curl": "Content-Type: application/json\r\n"}


def ids(count, order):
    values = set()
    source = random.Random(7)
    while len(values) < count:
        values.add(source.getrandbits(128) or 1)
    values = sorted(values)
    if order == "random":
        source.shuffle(values)
    elif order == "descending":
        values.reverse()
    return ["%032x" % value for value in values]


def write_stream(path, requests, order, heads):
    write = "POST /sync HTTP/1.1\r\n" + FIELDS[heads] + "Content-Length: 89\r\n" + JSON[heads] + "\r\n" + BODY
    read = "GET /row/category/%s HTTP/1.1\r\n" + FIELDS[heads] + "\r\n"
    with open(path, "w", newline="") as out:
        for name in ids(requests // 2, order):
            out.write(write % name)
            out.write(read % name)


def best_time(command):
    times = []
    for _ in range(3):
        start = time.perf_counter()
        status = subprocess.run(["bash", "-o", "pipefail", "-c", command]).returncode
        times.append(time.perf_counter() - start)
        if status != 0:
            sys.exit("status %d: %s" % (status, command))
    return min(times)


def time_streams(arguments):
    folder = arguments.keep or tempfile.mkdtemp()
    os.makedirs(folder, exist_ok=True)
    times = {}
    for requests in (10_000, 100_000):
        path = os.path.join(folder, "stream-%d" % requests)
        write_stream(path, requests, arguments.order, arguments.heads)
        times[requests] = best_time("%s run <%s >/dev/null" % (SHOP, path))
        print("%7d requests, %s ids, %s heads: %.3f s, %.2f microseconds each"
              % (requests, arguments.order, arguments.heads, times[requests], times[requests] / requests * 1e6))
        if not arguments.keep:
            os.remove(path)
    print("ratio %.1f" % (times[100_000] / times[10_000]))


def time_bodies():
    size, count = 1_048_576, 64
    head = "GET /row/category/%032x HTTP/1.1\r\nContent-Length: %d\r\n\r\n" % (16, size)
    with tempfile.NamedTemporaryFile() as stream:
        for _ in range(count):
            stream.write(head.encode() + b"x" * size)
        stream.flush()
        pieces = "dd if=%s bs=1024 status=none" % stream.name
        plain = best_time("%s | cat >/dev/null" % pieces)
        served = best_time("%s | %s run >/dev/null" % (pieces, SHOP))
    print("%d bodies of 1 MiB in pieces of 1 KiB: %.3f s, and %.3f s through cat" % (count, served, plain))


def main():
    parser = argparse.ArgumentParser(description=__doc__, formatter_class=argparse.RawDescriptionHelpFormatter)
    parser.add_argument("--order", choices=["random", "ascending", "descending"], default="random")
    parser.add_argument("--heads", choices=["plain", "curl"], default="plain")
    parser.add_argument("--keep", help="a folder in which the streams are kept")
    parser.add_argument("--bodies", action="store_true")
    arguments = parser.parse_args()
    subprocess.run([SHOP, "run"], stdin=subprocess.DEVNULL, check=True)
    if arguments.bodies:
        time_bodies()
    else:
        time_streams(arguments)


if __name__ == "__main__":
    main()
