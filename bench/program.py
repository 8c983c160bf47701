"""Lines of scripts, and runs of the built program on them, for the measurements beside this file."""
import itertools
import json
import os
import re
import statistics
import subprocess
import tempfile
import time
from typing import NamedTuple


def compact(value):
    return json.dumps(value, separators=(",", ":"))


class Kind(NamedTuple):
    """A kind of objects that lie in a namespace."""

    version: str
    name: str
    plural: str

    def path(self, ns):
        return f"/{'apis' if '/' in self.version else 'api'}/{self.version}/namespaces/{ns}/{self.plural}"

    def body(self, name, **members):
        return compact({"apiVersion": self.version, "kind": self.name, "metadata": {"name": name}, **members})


CONFIG_MAP = Kind("v1", "ConfigMap", "configmaps")

# How the answers of requests begin that succeed.
SUCCESS = (b"200 ", b"201 ")


def numbered(number):
    """The name of a namespace by its number. It is as long in a small run as in a large one, since a name's length tells in what is read, hashed and compared."""
    return f"n{number:04}"


def namespace(name):
    return f"POST /api/v1/namespaces {Kind('v1', 'Namespace', 'namespaces').body(name)}\n"


def create(ns, name, data, kind=CONFIG_MAP):
    return f"POST {kind.path(ns)} {kind.body(name, data=data)}\n"


def replace(ns, name, data, kind=CONFIG_MAP):
    return f"PUT {kind.path(ns)}/{name} {kind.body(name, data=data)}\n"


def read(ns, name, kind=CONFIG_MAP):
    return f"GET {kind.path(ns)}/{name}\n"


def remove(ns, name, kind=CONFIG_MAP):
    return f"DELETE {kind.path(ns)}/{name}\n"


def listing(ns, kind=CONFIG_MAP):
    """The line that lists a namespace's objects of a kind."""
    return f"GET {kind.path(ns)}\n"


def parts(lines, size):
    """The lines in parts of so many, without what is left."""
    its = iter(lines)
    while len(part := list(itertools.islice(its, size))) == size:
        yield part


class Run:
    """A run of the program with these options, which waits for more lines until it is closed. Its answers go to a file that is given, or to a temporary one."""

    def __init__(self, program, *options, answers=None):
        self.answers = answers or tempfile.TemporaryFile()
        self.taken = 0
        self.child = subprocess.Popen([program, "run", *options], stdin=subprocess.PIPE, stdout=self.answers)

    def ask(self, lines, statuses=SUCCESS):
        """Sends lines and gives their answers, each of which has one of the statuses."""
        answers = self.tell(lines, lambda text: text.count(b"\n") >= len(lines))
        assert len(answers) == len(lines) and all(answer.startswith(statuses) for answer in answers)
        return answers

    def settle(self, most=1_000_000_000):
        """Lets reconcilers settle, and gives how each of their turns ended."""
        *turns, end = self.tell([f"settle {most}\n"], lambda text: re.search(rb"^settle: .*\n", text[-64:], re.M))
        assert end == b"settle: settled" or end.startswith(b"settle: unsettled ")
        return [answer.split(b" ")[2] for answer in turns[1::2]]

    def tell(self, lines, is_whole):
        """Sends lines and gives what is answered, once that is whole."""
        self.child.stdin.write("".join(lines).encode())
        self.child.stdin.flush()
        text = b""
        while not is_whole(text):
            assert self.child.poll() is None
            time.sleep(0.001)
            # the child's writes go to where this file stands, so that it isn't moved
            text += os.pread(self.answers.fileno(), 1 << 28, self.taken + len(text))
        self.taken += len(text)
        return text.splitlines()

    def seconds(self, lines, statuses=SUCCESS):
        """The processor's time for the lines, in the program and in the system."""
        before = self.used()
        self.ask(lines, statuses)
        return self.used() - before

    def used(self):
        with open(f"/proc/{self.child.pid}/schedstat") as numbers:
            return int(numbers.read().split()[0]) / 1e9

    def peak(self):
        """The most resident bytes so far, or since they were last forgotten."""
        return self.status("VmHWM")

    def resident(self):
        return self.status("VmRSS")

    def status(self, field):
        with open(f"/proc/{self.child.pid}/status") as status:
            return int(re.search(rf"^{field}:\s*(\d+) kB$", status.read(), re.M)[1]) * 1024

    def forget_peak(self):
        """Lets the peak begin anew at what is resident."""
        with open(f"/proc/{self.child.pid}/clear_refs", "w") as refs:
            refs.write("5")

    def close(self):
        self.child.stdin.close()
        assert self.child.wait() == 0
        self.answers.close()


def compare(kind, names, runs, lines, part=2_480, count=32, statuses=SUCCESS):
    """Reports the time per request in two runs, which take turns in so many parts of the lines that each gives.

    Parts are long, since each begins with caches that hold what the other run has read."""
    turns = [(run, parts(lines(run), part)) for run in runs]
    report(kind, names, [[run.seconds(next(its), statuses) for run, its in turns] for _ in range(count)], part)


def report(kind, names, times, part):
    """Prints what a request takes in two columns of times, and gives the ratio of the second to the first.

    A row is a turn, in which one was measured right behind the other. The ratio is the middle one of all turns, and half of them lie between the two
    that stand behind it. A machine that others use may be slower by half for seconds: then both times of a turn are, but the least times of the two
    columns are of whatever moments, so that their ratio, which stands last, differs from run to run."""
    low, middle, high = statistics.quantiles([second / first for first, second in times], n=4, method="inclusive")
    first, second = (min(column) / part * 1e6 for column in zip(*times))
    least = f"{first:.1f} us at {names[0]}, {second:.1f} us at {names[1]}, ratio {second / first:.2f}"
    print(f"{kind}: ratio {middle:.2f} ({low:.2f} to {high:.2f}); least times {least}", flush=True)
    return middle
