#!/usr/bin/env python3
"""Prints the processor time that ./shop run (or the program named) takes to be filled with products by batches of 1,000.

filling.py [PROGRAM] [--random]: ids ascend, or are at random."""
import os
import random
import resource
import subprocess
import sys

PROGRAM = next((word for word in sys.argv[1:] if not word.startswith('--')), os.path.join(os.path.dirname(os.path.abspath(__file__)), '../crates/shop_app/out/shop_app'))


def post(body):
    body = body.encode()
    return b'POST /sync HTTP/1.1\r\nContent-Length: %d\r\n\r\n' % len(body) + body


def stream(count):
    ids = list(range(1, count + 1))
    if '--random' in sys.argv:
        drawn = random.Random(7)
        ids = [drawn.getrandbits(127) + 1 for _ in range(count)]
    tax = '%032x' % (2 ** 128 - 1)
    yield post('[{"op":"upsert","entity":"tax","id":"%s","fields":{"name":"Standard","rate":1900}}]' % tax)
    for start in range(0, count, 1000):
        ops = ('{"op":"upsert","entity":"product","id":"%032x","fields":{"number":"P%d","tax":"%s","gross":11900,"net":10000}}' % (id, start + at, tax)
               for at, id in enumerate(ids[start:start + 1000]))
        yield post('[' + ','.join(ops) + ']')


def processor_time(count):
    data = b''.join(stream(count))
    before = resource.getrusage(resource.RUSAGE_CHILDREN)
    run = subprocess.run([PROGRAM, 'run'], input=data, stdout=subprocess.PIPE)
    after = resource.getrusage(resource.RUSAGE_CHILDREN)
    assert run.returncode == 0 and run.stdout.count(b'HTTP/1.1 200') == 1 + (count + 999) // 1000, run.stdout[:300]
    return after.ru_utime - before.ru_utime + after.ru_stime - before.ru_stime


for products in (1000, 10000, 100000):
    print('%7d products: %.3f s' % (products, processor_time(products)), flush=True)
