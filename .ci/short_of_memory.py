#!/usr/bin/env python3
"""Runs the program under a limit of memory that its rows outgrow, and holds each answer against the writes that stand.

A write for which memory runs out is answered 507 and changes nothing: its row isn't there later. Where memory has run out,
a read may be answered 507 too. The connection goes on to its end.
"""
import re
import subprocess
import sys

PROGRAM, LIMIT = sys.argv[1], int(sys.argv[2])
COUNT = 300_000
IDS = ["%032x" % (number * 0x9E3779B97F4A7C15F39CC0605CEDC835 % 2**128) for number in range(1, COUNT + 1)]
BODY = '[{"op":"upsert","entity":"category","id":"%s","fields":{}}]'


def main():
    writes = "".join("POST /sync HTTP/1.1\r\nContent-Length: 89\r\n\r\n" + BODY % name for name in IDS)
    reads = "".join("GET /row/category/%s HTTP/1.1\r\n\r\n" % name for name in IDS)
    run = subprocess.run(
        ["bash", "-c", "ulimit -v %d && exec %s run" % (LIMIT, PROGRAM)],
        input=(writes + reads).encode(), stdout=subprocess.PIPE, timeout=100)
    statuses = re.findall(rb"HTTP/1\.1 (\d+)", run.stdout)
    written, read = statuses[:COUNT], statuses[COUNT:]
    right = (
        run.returncode == 0 and len(read) == COUNT and set(written) == {b"200", b"507"}
        and all(seen == b"507" or seen == (b"200" if done == b"200" else b"404") for done, seen in zip(written, read)))
    if not right:
        sys.exit("status %d, %d answers" % (run.returncode, len(statuses)))


main()
