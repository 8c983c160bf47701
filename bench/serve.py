#!/usr/bin/env python3
"""What a request costs over HTTP.

Usage: bench/serve.py [PROGRAM [SECONDS]]
PROGRAM is the built program, crates/hnc/out/hnc where none is given. It needs wrk and nginx. Prints a line each:
the GET of an object of 300 bytes over one keep-alive link beside nginx's file of the same bytes, by wrk, in turns of SECONDS (3) each: requests per second and
processor time a request, as ratios of the program's to nginx's, each the median of five, with its range; the same over 4 and 16 links at a time, each with
a session of its own, beside nginx with four workers; the calls of the system a request, by strace where it
is there; the blocks of memory that a GET makes over a link and in a script, and a link, by valgrind where it is there; and the processor time of a POST of
1 KiB in memory over a link, with that of the workers beside it, and of the same POST in a script, in turns, the medians of five. Each answer's status is looked at.
"""
import http.client
import json
import os
import re
import shutil
import socket
import statistics
import subprocess
import sys
import tempfile
import time

TOP = os.path.dirname(os.path.dirname(os.path.abspath(__file__)))
PROGRAM = sys.argv[1] if len(sys.argv) > 1 else f"{TOP}/crates/hnc/out/hnc"
TICK = os.sysconf("SC_CLK_TCK")
POSTS = 20_000
GETS = 1_000
LINKS = 100
# Sessions and workers: one session that has the cluster to itself, and those that share it.
ALONE, SHARED = (1, 0), (4, 2)
# So many links at a time, and how many workers nginx has then.
BESIDE = ((1, 1), (4, 4), (16, 4))
NAMESPACE = '{"apiVersion":"v1","kind":"Namespace","metadata":{"name":"n"}}'
CONFIG_MAPS = "/api/v1/namespaces/n/configmaps"

NGINX = """
{user}
worker_processes {workers};
daemon off;
pid {folder}/nginx.pid;
error_log {folder}/error.log;
events {{ worker_connections 64; }}
http {{
  access_log off;
  keepalive_requests 100000000;
  client_body_temp_path {folder}; proxy_temp_path {folder}; fastcgi_temp_path {folder}; uwsgi_temp_path {folder}; scgi_temp_path {folder};
  server {{ listen 127.0.0.1:{port}; root {folder}; default_type application/json; }}
}}
"""


def processor_time(pid):
    """The seconds of processor time of a process and its children, to the tick."""
    children = subprocess.run(["pgrep", "-P", str(pid)], capture_output=True, text=True).stdout.split()
    return sum(sum(map(int, open(f"/proc/{its}/stat").read().rpartition(")")[2].split()[11:13])) for its in [pid, *children]) / TICK


def serve(*before, sessions=4, workers=2):
    """A server on a free port. Its child and the port."""
    words = ["--listen", "127.0.0.1:0", "--sessions", str(sessions), "--workers", str(workers)]
    child = subprocess.Popen([*before, PROGRAM, "serve", *words], stdin=subprocess.DEVNULL, stderr=subprocess.PIPE)
    while not (ready := re.fullmatch(rb"hnc: serving on 127\.0\.0\.1:(\d+)\n", child.stderr.readline())):
        if child.poll() is not None:
            raise SystemExit("no server begins")
    return child, int(ready[1])


def ask(link, method, target, body=None, wanted=200):
    link.request(method, target, body=body)
    reply = link.getresponse()
    text = reply.read()
    if reply.status != wanted:
        raise SystemExit(f"{method} {target} is answered {reply.status} {text!r}")
    return text


def with_object(*before, sessions=4, workers=2):
    """A server that has one ConfigMap, as `serve` gives it, with a link to it, and the text of the object."""
    child, port = serve(*before, sessions=sessions, workers=workers)
    link = http.client.HTTPConnection("127.0.0.1", port)
    ask(link, "POST", "/api/v1/namespaces", NAMESPACE, 201)
    ask(link, "POST", CONFIG_MAPS, config_map("c", 262), 201)
    return child, port, link, ask(link, "GET", f"{CONFIG_MAPS}/c")


def config_map(name, size):
    """A ConfigMap whose text has so many bytes."""
    body = lambda data: json.dumps({"apiVersion": "v1", "kind": "ConfigMap", "metadata": {"name": name}, "data": {"a": data}}, separators=(",", ":"))
    return body("x" * (size - len(body(""))))


def wrk(url, seconds, pid, links):
    """Requests per second over so many links, and microseconds of the server's processor time each."""
    before = processor_time(pid)
    out = subprocess.run(["wrk", f"-t{min(links, 2)}", f"-c{links}", f"-d{seconds}s", url], capture_output=True, text=True, check=True).stdout
    if "Non-2xx" in out or "Socket errors" in out:
        raise SystemExit(out)
    count = int(re.search(r"(\d+) requests in", out)[1])
    return float(re.search(r"Requests/sec:\s+([\d.]+)", out)[1]), (processor_time(pid) - before) / count * 1e6


def ratio(mine, its):
    """The median of ratios, and their range."""
    ratios = sorted(m / n for m, n in zip(mine, its, strict=True))
    return f"{statistics.median(ratios):.2f} ({ratios[0]:.2f} to {ratios[-1]:.2f})"


def nginx_of(folder, target, text, workers):
    """nginx with a file of the text. Its child and its port."""
    path = f"{folder}{target}"
    os.makedirs(os.path.dirname(path), exist_ok=True)
    with open(path, "wb") as file:
        file.write(text)
    with socket.socket() as free:
        free.bind(("127.0.0.1", 0))
        port = free.getsockname()[1]
    with open(f"{folder}/nginx.conf", "w") as conf:
        conf.write(NGINX.format(folder=folder, port=port, workers=workers, user="user root;" * (os.getuid() == 0)))
    nginx = subprocess.Popen(["nginx", "-p", folder, "-c", f"{folder}/nginx.conf"], stderr=subprocess.DEVNULL)
    time.sleep(0.5)
    link = http.client.HTTPConnection("127.0.0.1", port)
    if ask(link, "GET", target) != text:
        raise SystemExit("nginx gives other bytes")
    link.close()
    return nginx, port


def gets(folder, seconds, links, workers):
    """The GET of an object over so many links, each of which has a session, beside nginx with so many workers."""
    child, port, link, text = with_object(sessions=max(links, 4))
    link.close()
    target = f"{CONFIG_MAPS}/c"
    nginx, nginx_port = nginx_of(folder, target, text, workers)
    rounds = [(wrk(f"http://127.0.0.1:{port}{target}", seconds, child.pid, links), wrk(f"http://127.0.0.1:{nginx_port}{target}", seconds, nginx.pid, links)) for _ in range(5)]
    nginx.terminate()
    nginx.wait()
    mine, its = zip(*rounds)
    (rates, times), (its_rates, its_times) = zip(*mine), zip(*its)
    print(f"GET of {len(text)} bytes, {links} links : nginx's file, {workers} workers: requests a second {ratio(rates, its_rates)}, {statistics.median(rates):,.0f} : {statistics.median(its_rates):,.0f}")
    print(f"the same: processor time a request {ratio(times, its_times)}, {statistics.median(times):.1f} us : {statistics.median(its_times):.1f} us", flush=True)
    if links == 1:
        calls(child, port, target)
    child.terminate()
    child.wait()


def calls(child, port, target):
    if not shutil.which("strace"):
        return
    link = http.client.HTTPConnection("127.0.0.1", port)
    ask(link, "GET", target)
    with tempfile.NamedTemporaryFile() as told:
        trace = subprocess.Popen(["strace", "-f", "-c", "-o", told.name, "-p", str(child.pid)], stderr=subprocess.DEVNULL)
        time.sleep(1)
        for _ in range(GETS):
            ask(link, "GET", target)
        trace.terminate()
        trace.wait()
        counts = {row.split()[-1]: int(row.split()[3]) for row in open(told.name) if re.match(r"\s*[\d.]+\s", row) and row.split()[-1] != "total"}
    link.close()
    print(f"calls of the system of {GETS} GETs: {', '.join(f'{name} {count}' for name, count in sorted(counts.items(), key=lambda it: -it[1]))}", flush=True)


def heap(err):
    """How many blocks of memory valgrind counted, and their bytes."""
    made = re.search(r"total heap usage: ([\d,]+) allocs, [\d,]+ frees, ([\d,]+) bytes allocated", err)
    return [int(number.replace(",", "")) for number in made.groups()]


def heap_of_links(links, gets, sessions=4, workers=2):
    """What a server asks for that answers so many links, of so many GETs each."""
    child, port, link, _ = with_object("valgrind", "--leak-check=no", sessions=sessions, workers=workers)
    link.close()
    for _ in range(links):
        link = http.client.HTTPConnection("127.0.0.1", port)
        for _ in range(gets):
            ask(link, "GET", f"{CONFIG_MAPS}/c")
        link.close()
    time.sleep(0.5)
    child.terminate()
    return heap(child.communicate()[1].decode())


def heap_of_script(count):
    lines = [f"POST /api/v1/namespaces {NAMESPACE}\n", f"POST {CONFIG_MAPS} {config_map('c', 262)}\n", *[f"GET {CONFIG_MAPS}/c\n"] * count]
    ran = subprocess.run(["valgrind", "--leak-check=no", PROGRAM, "run"], input="".join(lines), capture_output=True, text=True, check=True)
    if [line[:4] for line in ran.stdout.splitlines()] != ["201 ", "201 "] + ["200 "] * count:
        raise SystemExit("a script is answered otherwise")
    return heap(ran.stderr)


def blocks():
    """Blocks of a GET, and the bytes of a link: all that is asked for from its begin to its end."""
    if not shutil.which("valgrind"):
        return
    of_link, of_script = (
        (many[0] - few[0]) / GETS for few, many in ((heap_of_links(1, GETS), heap_of_links(1, 2 * GETS)), (heap_of_script(GETS), heap_of_script(2 * GETS)))
    )
    print(f"blocks of memory of a GET: {of_link:.2f} over a link, {of_script:.2f} in a script", flush=True)
    for sessions, workers in (ALONE, SHARED):
        few, many = (heap_of_links(links, 10, sessions, workers) for links in (LINKS, 2 * LINKS))
        print(f"a link of ten GETs to {sessions} + {workers}: {(many[1] - few[1]) / LINKS:,.0f} bytes in {(many[0] - few[0]) / LINKS:.1f} blocks", flush=True)


def post_over_link(bodies, sessions, workers):
    """Microseconds of processor time of a POST over a link, head and body in one piece, with that of workers."""
    child, port, first, _ = with_object(sessions=sessions, workers=workers)
    first.close()
    messages = [f"POST {CONFIG_MAPS} HTTP/1.1\r\nHost: h\r\nContent-Length: {len(body)}\r\n\r\n{body}".encode() for body in bodies]
    with socket.create_connection(("127.0.0.1", port)) as link:
        link.setsockopt(socket.IPPROTO_TCP, socket.TCP_NODELAY, 1)
        before = processor_time(child.pid)
        for message in messages:
            link.sendall(message)
            reply = link.recv(65_536)
            if not reply.startswith(b"HTTP/1.1 201 "):
                raise SystemExit(f"a POST is answered {reply!r}")
        spent = processor_time(child.pid) - before
    child.terminate()
    child.wait()
    return spent / len(bodies) * 1e6


def post_in_script(bodies):
    """The same in a script, whose lines are sent one by one, each when the one before it was answered."""
    run = subprocess.Popen([PROGRAM, "run"], stdin=subprocess.PIPE, stdout=subprocess.PIPE)

    def ask_line(line):
        run.stdin.write(line.encode())
        run.stdin.flush()
        answer = run.stdout.readline()
        if not answer.startswith(b"201 "):
            raise SystemExit(f"a line is answered {answer!r}")

    ask_line(f"POST /api/v1/namespaces {NAMESPACE}\n")
    before = processor_time(run.pid)
    for body in bodies:
        ask_line(f"POST {CONFIG_MAPS} {body}\n")
    spent = processor_time(run.pid) - before
    run.stdin.close()
    run.wait()
    return spent / len(bodies) * 1e6


def posts():
    bodies = [config_map(f"c{number}", 1_024) for number in range(POSTS)]
    for sessions, workers in (ALONE, SHARED):
        rounds = [(post_over_link(bodies, sessions, workers), post_in_script(bodies)) for _ in range(5)]
        more = statistics.median(mine - its for mine, its in rounds)
        mine, its = (statistics.median(times) for times in zip(*rounds))
        print(f"POST of 1 KiB in memory over a link to {sessions} + {workers} : in a script: processor time {more:+.1f} us, {mine:.1f} us : {its:.1f} us", flush=True)


def main():
    with tempfile.TemporaryDirectory() as folder:
        for links, workers in BESIDE:
            gets(folder, int(sys.argv[2]) if len(sys.argv) > 2 else 3, links, workers)
    blocks()
    posts()


if __name__ == "__main__":
    main()
