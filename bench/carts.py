#!/usr/bin/env python3
"""Times GET /cart/{id}, in processor time, for a cart of 100 lines, 20 promotions and 20 rules.

usage: bench/carts.py [PROGRAM..]      programs beside ./shop, each called as `PROGRAM run`: an older build, another shop

Prints for each program what one such answer takes over 1,000 and over 100,000 products, and what it takes beside ./shop. Each time is the
best of five rounds, in which the programs run one after the other, less what the same program needs without the carts. The answers of
all programs are compared.
"""
import os
import subprocess
import sys
import tempfile

TOP = os.path.dirname(os.path.dirname(os.path.abspath(__file__)))
SHOP = os.path.join(TOP, "shop")
COUNT = 2_000
ROUNDS = 5


def i(number):
    return "%032x" % number


def upsert(entity, key, **fields):
    given = ",".join('"%s":%s' % (name, value if isinstance(value, int) else '"%s"' % value) for name, value in fields.items())
    return '{"op":"upsert","entity":"%s","id":"%s","fields":{%s}}' % (entity, i(key), given)


def sync(operations):
    body = ("[%s]" % ",".join(operations)).encode()
    return b"POST /sync HTTP/1.1\r\nContent-Length: %d\r\n\r\n%s" % (len(body), body)


def products(count):
    """So many products, each with its price, in batches of 1,000."""
    for start in range(0, count, 1000):
        yield sync(upsert("product", 0x100000 + k, number="P%d" % k, tax=i(3), gross=1190 + k % 1000, net=1000 + k % 1000, weight=250) for k in range(start, start + 1000))


def the_cart(count):
    """A cart of 100 lines of products that stand far apart, of which ten have prices for a rule; 20 rules of three conditions, of which half
    hold, and 20 promotions, of which half count."""
    yield upsert("cart", 0x10, method=i(4), group="trade")
    for k in range(100):
        yield upsert("cart_line", 0x200 + k, cart=i(0x10), product=i(0x100000 + k * (count // 100)), quantity=1 + k % 7, position=k)
    for k in range(20):
        yield upsert("rule", 0x300 + k, name="Rule %d" % k, priority=k)
        yield upsert("rule_condition", 0x400 + k, rule=i(0x300 + k), kind="or")
        yield upsert("rule_condition", 0x500 + k, rule=i(0x300 + k), parent=i(0x400 + k), kind="amount", low=k * 65_000)
        yield upsert("rule_condition", 0x600 + k, rule=i(0x300 + k), parent=i(0x400 + k), kind="group", text="retail")
        yield upsert("promotion", 0x700 + k, name="Promotion %d" % k, priority=k, rule=i(0x300 + k))
        yield upsert("promotion_discount", 0x800 + k, promotion=i(0x700 + k), scope="cart" if k % 4 else "delivery", kind="percent", value=100 + k)
    for k in range(10):
        yield upsert("product_price", 0x900 + k, product=i(0x100000 + 10 * k * (count // 100)), rule=i(0x300 + k), low=1, gross=1100, net=924)


def shop_of(count):
    first = [upsert("tax", 3, name="Standard", rate=1900), upsert("shipping_method", 4, name="Parcel", tax=i(3)), upsert("shipping_price", 5, method=i(4), by="weight", gross=595, net=500)]
    return sync(first) + b"".join(products(count)) + sync(the_cart(count))


def seconds_of(program, stream):
    """The processor time of the program over the stream, and the last answer."""
    with tempfile.NamedTemporaryFile() as source, tempfile.TemporaryFile() as sink:
        source.write(stream)
        source.flush()
        with open(source.name, "rb") as requests:
            child = subprocess.Popen([program, "run"], stdin=requests, stdout=sink)
            _, status, usage = os.wait4(child.pid, 0)
        if status:
            sys.exit("%s: status %d" % (program, os.waitstatus_to_exitcode(status)))
        sink.seek(max(0, sink.seek(0, 2) - 100_000))
        answer = sink.read().rpartition(b"HTTP/1.1 ")[2]
        return usage.ru_utime + usage.ru_stime, answer


def main():
    programs = [SHOP] + sys.argv[1:]
    subprocess.run([SHOP, "check"], stdout=subprocess.DEVNULL, check=True)
    for count in (1_000, 100_000):
        shop = shop_of(count)
        carts = (b"GET /cart/%s HTTP/1.1\r\n\r\n" % i(0x10).encode()) * COUNT
        without, beside, answers = ({program: [] for program in programs} for _ in range(3))
        for _ in range(ROUNDS):
            for program in programs:
                without[program].append(seconds_of(program, shop)[0])
                took, answer = seconds_of(program, shop + carts)
                beside[program].append(took)
                answers[program].append(answer)
        if len({answer for each in answers.values() for answer in each}) > 1:
            sys.exit("the programs answer otherwise than each other")
        one = {program: (min(beside[program]) - min(without[program])) / COUNT for program in programs}
        print("%d products" % count)
        for program in programs:
            print("  %-40s %8.1f µs  ./shop takes %.2f times that" % (program, one[program] * 1e6, one[SHOP] / one[program]))


main()
