"""What several of the benchmarks here share: the program, a request for it, and what a stream of requests costs it."""
import os
import re
import subprocess
import sys
import tempfile

TOP = os.path.dirname(os.path.dirname(os.path.abspath(__file__)))
SHOP = os.path.join(TOP, "shop")
PROGRAM = os.path.join(TOP, "crates", "shop_app", "out", "shop_app")


def post(body):
    return b"POST /sync HTTP/1.1\r\nContent-Length: %d\r\n\r\n%s" % (len(body), body)


def build():
    """Has the program built where a source is newer than it."""
    subprocess.run([SHOP, "run"], stdin=subprocess.DEVNULL, check=True)


def seconds_of(stream):
    """The processor time of the program over the stream: the best of three runs."""
    with tempfile.NamedTemporaryFile() as file:
        file.write(stream)
        file.flush()
        times = []
        for _ in range(3):
            with open(file.name, "rb") as source, open(os.devnull, "wb") as sink:
                child = subprocess.Popen([SHOP, "run"], stdin=source, stdout=sink)
                _, status, usage = os.wait4(child.pid, 0)
            if status:
                sys.exit("status %d" % os.waitstatus_to_exitcode(status))
            times.append(usage.ru_utime + usage.ru_stime)
        return min(times)


def instructions_of(stream):
    """How many instructions the program takes for the stream, as valgrind counts them."""
    with tempfile.NamedTemporaryFile() as file:
        file.write(stream)
        file.flush()
        with open(file.name, "rb") as source:
            words = ["valgrind", "--tool=cachegrind", "--cache-sim=no", "--cachegrind-out-file=/dev/null", PROGRAM, "run"]
            child = subprocess.run(words, stdin=source, stdout=subprocess.DEVNULL, stderr=subprocess.PIPE, check=True)
        return int(re.search(rb"I *refs: *([0-9,]+)", child.stderr)[1].replace(b",", b""))
