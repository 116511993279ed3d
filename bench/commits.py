#!/usr/bin/env python3
"""Prints what one commit costs into 1,000, 10,000 and 100,000 rows, and the ratios.

usage: bench/commits.py [--place anywhere|end]

A cost is the processor time of a run of ./shop with so many writes in the order of their ids and then MORE further writes,
less that of a run without these, divided by MORE: the best of five runs each, with standard output thrown away. --place
says whether the further ids stand anywhere among the others or behind them all. The keeper is the program's one in memory.
"""
import argparse
import os
import random
import subprocess
import tempfile

TOP = os.path.dirname(os.path.dirname(os.path.abspath(__file__)))
SHOP = os.path.join(TOP, "shop")
WRITE = 'POST /sync HTTP/1.1\r\nContent-Length: 89\r\n\r\n[{"op":"upsert","entity":"category","id":"%032x","fields":{}}]'
SIZES = [1_000, 10_000, 100_000]
MORE = 2_000


def ids(size, place):
    source = random.Random(7)
    values = set()
    while len(values) < size + MORE:
        values.add(source.getrandbits(128) or 1)
    values = sorted(values)
    if place == "end":
        return values[:size], values[size:]
    further = source.sample(values, MORE)
    chosen = set(further)
    return [value for value in values if value not in chosen], further


def processor_time(path):
    times = []
    for _ in range(5):
        with open(path, "rb") as stream:
            run = subprocess.Popen([SHOP, "run"], stdin=stream, stdout=subprocess.DEVNULL)
            _, status, usage = os.wait4(run.pid, 0)
            run.returncode = os.waitstatus_to_exitcode(status)
        if run.returncode != 0:
            raise SystemExit("status %d" % run.returncode)
        times.append(usage.ru_utime + usage.ru_stime)
    return min(times)


def main():
    options = argparse.ArgumentParser()
    options.add_argument("--place", choices=["anywhere", "end"], default="anywhere")
    place = options.parse_args().place
    subprocess.run([SHOP, "check"], stdout=subprocess.DEVNULL, check=True)
    first = None
    with tempfile.TemporaryDirectory() as folder:
        path = os.path.join(folder, "writes")
        for size in SIZES:
            before, further = ids(size, place)
            times = []
            for values in (before, before + further):
                with open(path, "w", newline="") as out:
                    out.writelines(WRITE % value for value in values)
                times.append(processor_time(path))
            cost = (times[1] - times[0]) / MORE
            first = first or cost
            print("%7d rows: %8.1f us a commit, %.1f times the first" % (size, cost * 1e6, cost / first))


main()
