#!/usr/bin/env python3
"""What several sessions give, beside one.

Usage: bench/threads.py [PROGRAM [SECONDS [SYNC_US]]]
PROGRAM is the built program, crates/hnc/out/hnc where none is given. It needs cc, which compiles bench/load.c. Each number is the middle of five turns of
SECONDS (2) each, and of a tenth of it where POSTs are made in memory, since a store takes 65,536 objects. Behind it stands its range. Prints a line each: the GETs of an object of 300 bytes that four links have a second of four sessions, as a ratio to those
that one link has; the same of POSTs of 1 KiB in memory; and the time of a POST over a file, of one link alone, of one beside three that write, and of one
beside three that read. Two workers are there in all of them. With SYNC_US only the POSTs over a file are
tried, and a sync takes at least so many microseconds, as on a slower disk (bench/slow_sync.c).
"""
import http.client
import os
import re
import statistics
import subprocess
import sys
import tempfile

TOP = os.path.dirname(os.path.dirname(os.path.abspath(__file__)))
PROGRAM = sys.argv[1] if len(sys.argv) > 1 else f"{TOP}/crates/hnc/out/hnc"
SECONDS = sys.argv[2] if len(sys.argv) > 2 else "2"
SYNC_US = sys.argv[3] if len(sys.argv) > 3 else None
ENVIRONMENT = dict(os.environ)
NAMESPACE = '{"apiVersion":"v1","kind":"Namespace","metadata":{"name":"n"}}'
OBJECT = '{"apiVersion":"v1","kind":"ConfigMap","metadata":{"name":"c"},"data":{"a":"%s"}}' % ("x" * 180)
CONFIG_MAPS = "/api/v1/namespaces/n/configmaps"
GET = ("get", f"{CONFIG_MAPS}/c")
POST = ("post", CONFIG_MAPS, "1024")
TURNS = 5


class Server:
    """A server of four sessions and two workers, with one ConfigMap."""

    def __init__(self, *options):
        words = [PROGRAM, "serve", "--listen", "127.0.0.1:0", "--sessions", "4", "--workers", "2", *options]
        self.child = subprocess.Popen(words, stdin=subprocess.DEVNULL, stderr=subprocess.PIPE, env=ENVIRONMENT)
        self.port = re.fullmatch(rb"hnc: serving on 127\.0\.0\.1:(\d+)\n", self.child.stderr.readline())[1].decode()
        link = http.client.HTTPConnection("127.0.0.1", int(self.port))
        for target, body in (("/api/v1/namespaces", NAMESPACE), (CONFIG_MAPS, OBJECT)):
            link.request("POST", target, body=body)
            reply = link.getresponse()
            reply.read()
            if reply.status != 201:
                raise SystemExit(f"POST {target} is answered {reply.status}")
        link.close()

    def end(self):
        self.child.terminate()
        self.child.communicate()


def begin(load, server, links, words, share=1.0):
    return subprocess.Popen([load, server.port, str(links), str(float(SECONDS) * share), *words], stdout=subprocess.PIPE, text=True)


def told(run):
    """Requests a second, and the middle time of one in microseconds."""
    out = run.communicate()[0]
    if run.returncode:
        raise SystemExit("a load ends")
    count, seconds, middle = map(float, out.split())
    return count / seconds, middle


def middle(numbers, form):
    numbers = sorted(numbers)
    return f"{form.format(statistics.median(numbers))} ({form.format(numbers[0])} to {form.format(numbers[-1])})"


def beside(load, words, what, share=1.0):
    """The requests of four links a second, beside those of one."""
    ratios, rates = [], []
    for _ in range(TURNS):
        server = Server()
        try:
            one, four = (told(begin(load, server, links, words, share))[0] for links in (1, 4))
        finally:
            server.end()
        ratios.append(four / one)
        rates.append((four, one))
    four, one = (statistics.median(each) for each in zip(*rates))
    print(f"{what}, 4 links : 1 on 4 sessions: {middle(ratios, '{:.2f}')}, {four:,.0f} : {one:,.0f} a second", flush=True)


def over_file(load, folder):
    """The time of a POST over a file, with others beside it."""
    for what, links, words in (("alone", 0, POST), ("beside 3 links that write", 3, POST), ("beside 3 links that read", 3, GET)):
        times = []
        for turn in range(TURNS):
            server = Server("--db", f"{folder}/{links}{words[0]}{turn}.db")
            others = begin(load, server, links, words) if links else None
            times.append(told(begin(load, server, 1, POST))[1])
            if others:
                told(others)
            server.end()
        print(f"a POST of 1 KiB over a file, {what}: {middle(times, '{:,.0f}')} us", flush=True)


def main():
    with tempfile.TemporaryDirectory() as folder:
        load = f"{folder}/load"
        subprocess.run(["cc", "-O2", "-pthread", "-o", load, f"{TOP}/bench/load.c"], check=True)
        if SYNC_US:
            library = f"{folder}/slow_sync.so"
            subprocess.run(["cc", "-O2", "-shared", "-fPIC", "-o", library, f"{TOP}/bench/slow_sync.c", "-ldl"], check=True)
            ENVIRONMENT.update(LD_PRELOAD=library, SYNC_US=SYNC_US)
            over_file(load, folder)
            return
        beside(load, GET, "GETs of 300 bytes")
        beside(load, POST, "POSTs of 1 KiB in memory", 0.1)
        over_file(load, folder)


if __name__ == "__main__":
    main()
