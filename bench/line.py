#!/usr/bin/env python3
"""Times the way of a request through the program: streams from a file, in processor time.

usage: bench/line.py [PROGRAM..]      programs beside ./shop, each called as `PROGRAM run`: an older build, another shop

Prints for each program what a read, a read with curl's fields and an upsert cost, with the answers going to /dev/null and to a
file, and the same for a client that waits for each answer before it asks on (wall time). Then what the program needs for 4 bodies
of 1 MiB in pieces of 16 bytes. Each time is the best of five, less what the program needs for the requests before those that are
measured.
"""
import os
import subprocess
import sys
import tempfile
import time

TOP = os.path.dirname(os.path.dirname(os.path.abspath(__file__)))
SHOP = os.path.join(TOP, "shop")
COUNT = 200_000
CURL = b"Host: 127.0.0.1:8080\r\nUser-Agent: curl/8.5.0\r\nAccept: */*\r\n"


def upsert(number):
    body = b'[{"op":"upsert","entity":"category","id":"%032x","fields":{"position":%d}}]' % (number, number % 1000)
    return b"POST /sync HTTP/1.1\r\nContent-Length: %d\r\n\r\n%s" % (len(body), body)


def read(number, fields=b""):
    return b"GET /row/category/%032x HTTP/1.1\r\n%s\r\n" % (number, fields)


def seconds_of(program, stream, out):
    """The processor time of the program over the stream."""
    times = []
    with tempfile.NamedTemporaryFile() as file:
        file.write(stream)
        file.flush()
        for _ in range(5):
            with open(file.name, "rb") as source, open(out, "wb") as sink:
                child = subprocess.Popen([program, "run"], stdin=source, stdout=sink)
                _, status, usage = os.wait4(child.pid, 0)
            if status:
                sys.exit("%s: status %d" % (program, os.waitstatus_to_exitcode(status)))
            times.append(usage.ru_utime + usage.ru_stime)
    return min(times)


def in_turn(program, count):
    """The wall time of a client that sends one read at a time."""
    child = subprocess.Popen([program, "run"], stdin=subprocess.PIPE, stdout=subprocess.PIPE, bufsize=0)
    child.stdin.write(upsert(1))
    os.read(child.stdout.fileno(), 65536)
    start = time.perf_counter()
    for _ in range(count):
        os.write(child.stdin.fileno(), read(1))
        os.read(child.stdout.fileno(), 65536)
    took = time.perf_counter() - start
    child.stdin.close()
    child.wait()
    return took / count


def in_pieces(program):
    """The processor time over bodies that come in pieces."""
    stream = b"".join(b"GET /row/category/%032x HTTP/1.1\r\nContent-Length: 1048576\r\n\r\n%s" % (1, b"x" * 1048576) for _ in range(4))
    child = subprocess.Popen([program, "run"], stdin=subprocess.PIPE, stdout=subprocess.DEVNULL, bufsize=0)
    for at in range(0, len(stream), 16):
        os.write(child.stdin.fileno(), stream[at:at + 16])
    child.stdin.close()
    _, _, usage = os.wait4(child.pid, 0)
    return usage.ru_utime + usage.ru_stime


def time_program(program):
    base = b"".join(upsert(number) for number in range(1, 1001))
    streams = {
        "a read": b"".join(read(number % 1000 + 1) for number in range(COUNT)),
        "a read with curl's fields": b"".join(read(number % 1000 + 1, CURL) for number in range(COUNT)),
        "an upsert": b"".join(upsert(number % 1000 + 1) for number in range(COUNT)),
    }
    print(program)
    for out in ("/dev/null", os.path.join(tempfile.gettempdir(), "line-answers")):
        start = seconds_of(program, base, out)
        for name, stream in streams.items():
            cost = (seconds_of(program, base + stream, out) - start) / COUNT
            print("  %-26s to %-9s %.2f microseconds" % (name, "/dev/null" if out == "/dev/null" else "a file", cost * 1e6))
    print("  a read by a client that waits: %.1f microseconds" % (min(in_turn(program, 20_000) for _ in range(3)) * 1e6))
    print("  4 bodies of 1 MiB in pieces of 16 bytes: %.2f s" % min(in_pieces(program) for _ in range(3)))


if sys.argv[1:2] in (["-h"], ["--help"]):
    sys.exit(__doc__)
subprocess.run([SHOP, "run"], stdin=subprocess.DEVNULL, check=True)
for one in [SHOP] + sys.argv[1:]:
    time_program(one)
