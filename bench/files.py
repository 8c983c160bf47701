"""Runs of the built program over database files, for the checks and measurements that look at what is in them."""
import json
import os
import shutil
import subprocess

TOP = os.path.dirname(os.path.dirname(os.path.abspath(__file__)))
BUILT = f"{TOP}/crates/hnc/out/hnc"
LISTS = [
    "GET /api/v1/namespaces\n",
    "GET /api/v1/configmaps\n",
    "GET /apis/rbac.authorization.k8s.io/v1/roles\n",
    "GET /apis/hnc.x-k8s.io/v1alpha2/hierarchyconfigurations\n",
]


class Files:
    """A database file and its log, and a copy of the program beside them, which every user may run."""

    def __init__(self, folder, name):
        self.path, self.program = f"{folder}/{name}.db", f"{folder}/hnc"
        if not os.path.exists(self.program):
            shutil.copy(BUILT, self.program)

    def run(self, lines, **options):
        """The status, the answers and what is on standard error of a run."""
        options = {"input": "".join(lines).encode(), "stdout": subprocess.PIPE, "stderr": subprocess.PIPE, **options}
        ran = subprocess.run([self.program, "run", "--db", self.path], **options)
        return ran.returncode, ran.stdout, ran.stderr

    def begin(self, **options):
        """A run that waits for lines."""
        options = {"stdin": subprocess.PIPE, "stdout": subprocess.PIPE, **options}
        return subprocess.Popen([self.program, "run", "--db", self.path], **options)

    def objects(self, lines=()):
        """The status, the objects by kind and place, and what is on standard error, of a start with these lines."""
        status, answers, said = self.run([*lines, *LISTS])
        found = {}
        for answer in answers.splitlines()[-len(LISTS) :] if status == 0 else []:
            found.update(placed(*json.loads(answer.split(b" ", 1)[1])["items"]))
        return status, found, said

    def kept(self):
        """The bytes of the file and of its log."""
        return [read(self.path + end) if os.path.exists(self.path + end) else b"" for end in ("", "-wal")]

    def put(self, kept):
        """Writes the bytes of the file and of its log."""
        for end, its in zip(("", "-wal"), kept):
            with open(self.path + end, "wb") as it:
                it.write(its)

    def remove_log(self):
        if os.path.exists(f"{self.path}-wal"):
            os.remove(f"{self.path}-wal")


def read(path):
    with open(path, "rb") as it:
        return it.read()


def placed(*items):
    """Objects by their kind, namespace and name."""
    return {(item["kind"], item["metadata"].get("namespace"), item["metadata"]["name"]): item for item in items}


def told(lines):
    """What is sent to a run that waits."""
    return "".join(lines).encode()
