#!/usr/bin/env python3
"""Times questions about products and writes that change their answers, in processor time.

usage: bench/listings.py [PROGRAM..]      programs beside ./shop, each called as `PROGRAM run`: an older build

In a shop of 1,000 and of 50,000 products, all in one category and with a stream that filters by price, prints what one of these takes: a
page of the category (the first and the last), the price of a product, the members of a stream of ten, and a write that changes one product's
price, with a read of that product's listing price behind it, so that the write is published. The shop is filled once; each figure is the least
of five rounds, by the processor time of the running program.
"""
import os
import subprocess
import sys
import threading

TOP = os.path.dirname(os.path.dirname(os.path.abspath(__file__)))
SHOP = os.path.join(TOP, "shop")
ROUNDS = 5
FIRST = 0x100000
HEAD = b"HTTP/1.1 "


def i(number):
    return "%032x" % number


def upsert(entity, key, second=None, **fields):
    given = ",".join('"%s":%s' % (name, value if isinstance(value, int) else '"%s"' % value) for name, value in fields.items())
    other = "" if second is None else ',"second":"%s"' % i(second)
    return '{"op":"upsert","entity":"%s","id":"%s"%s,"fields":{%s}}' % (entity, i(key), other, given)


def sync(operations):
    body = ("[%s]" % ",".join(operations)).encode()
    return b"POST /sync HTTP/1.1\r\nContent-Length: %d\r\n\r\n%s" % (len(body), body)


def get(path):
    return b"GET %s HTTP/1.1\r\n\r\n" % path.encode()


def shop_of(count):
    """So many products in one category, of which ten cost more than the stream's filter asks for."""
    yield sync([upsert("tax", 3, name="Standard", rate=1900), upsert("category", 0x10), upsert("stream", 0x20, name="Dear"),
                upsert("stream_filter", 0x21, stream=i(0x20), kind="range", field="gross", low=10_000)])
    for start in range(0, count, 500):
        numbers = range(start, min(start + 500, count))
        yield sync([upsert("product", FIRST + k, number="P%d" % k, tax=i(3), gross=20_000 if k % (count // 10) == 0 else 1190 + k % 1000, net=1000, weight=250) for k in numbers]
                   + [upsert("product_category", FIRST + k, 0x10) for k in numbers])
    yield get("/category/%s/listing/1" % i(0x10))


def questions(count):
    """What is asked: its name, how often, and the requests of the n-th time."""
    last = -(-count // 24)
    some = lambda n: 1 + n * 7 % (count - 1)
    return [
        ("the first page", 10_000, lambda n: [get("/category/%s/listing/1" % i(0x10))]),
        ("the last page", 10_000, lambda n: [get("/category/%s/listing/%d" % (i(0x10), last))]),
        ("a product's price", 50_000, lambda n: [get("/product/%s/price" % i(FIRST + some(n)))]),
        ("ten members of a stream", 50_000, lambda n: [get("/stream/%s/members" % i(0x20))]),
        ("a price that changes, and its read", 1_000, lambda n: [sync([upsert("product", FIRST + some(n), gross=1200 + n)]), get("/product/%s/price" % i(FIRST + some(n)))]),
    ]


class Running:
    """A program that is running, and how many responses of status 200 it has given."""

    def __init__(self, program):
        self.child = subprocess.Popen([program, "run"], stdin=subprocess.PIPE, stdout=subprocess.PIPE)
        self.seen = 0
        self.more = threading.Condition()
        threading.Thread(target=self.read, daemon=True).start()

    def read(self):
        rest = b""
        while True:
            piece = os.read(self.child.stdout.fileno(), 1 << 20)
            with self.more:
                rest += piece
                self.seen = self.seen + rest.count(HEAD + b"200") if piece else 1 << 60
                self.more.notify()
                rest = rest[-len(HEAD) - 2:]
            if not piece:
                return

    def seconds(self):
        """The processor time so far."""
        with open("/proc/%d/schedstat" % self.child.pid) as stat:
            return int(stat.read().split()[0]) / 1e9

    def ask(self, requests):
        """Sends the requests, and gives the processor time until all are answered."""
        before, wanted = self.seconds(), self.seen + len(requests)
        self.child.stdin.write(b"".join(requests))
        self.child.stdin.flush()
        with self.more:
            self.more.wait_for(lambda: self.seen >= wanted)
        if self.seen != wanted:
            sys.exit("the program ended, or an answer was none of status 200")
        return self.seconds() - before


def main():
    subprocess.run([SHOP, "check"], stdout=subprocess.DEVNULL, check=True)
    for count in (1_000, 50_000):
        for program in [SHOP] + sys.argv[1:]:
            running = Running(program)
            print("%s, %d products" % (program, count))
            print("  %-36s %10.2f s" % ("filling it, and a page", running.ask(list(shop_of(count)))))
            for name, times, ask in questions(count):
                requests = [request for n in range(times) for request in ask(n)]
                print("  %-36s %10.1f µs" % (name, min(running.ask(requests) for _ in range(ROUNDS)) / times * 1e6), flush=True)
            running.child.stdin.close()
            running.child.wait()


main()
