"""What bin/rlemu-sweep-memory, bin/rlemu-sweep-io and bin/rlemu-sweep-texts share: the proved program, run many times on all processors, with
faults that bin/faults.c makes under it."""
import concurrent.futures
import contextlib
import os
import resource
import shutil
import subprocess
import sys
import tempfile

TOP = os.path.dirname(os.path.dirname(os.path.realpath(__file__)))
PROGRAM = f"{TOP}/crates/rlemu/out/rlemu"
SECONDS, BYTES = 10, 1 << 30
DONE, REFUSED, READ_FAULT, WRITE_FAULT, MEMORY = 0, 2, 3, 4, 5


def say(text):
    print(f"{os.path.basename(sys.argv[0])}: {text}", file=sys.stderr, flush=True)


def built():
    """Whether the proved program is there and current; it is built first where it is not, however long that takes."""
    ran = subprocess.run([f"{TOP}/bin/rlemu", "show", "0"], stdin=subprocess.DEVNULL, stdout=subprocess.DEVNULL, check=False)
    return ran.returncode == 0 and os.access(PROGRAM, os.X_OK)


@contextlib.contextmanager
def faults():
    """The library that makes the calls fail, compiled into a folder that goes at the end."""
    compiler = shutil.which("gcc") or shutil.which("cc") or shutil.which("clang")
    if not compiler:
        raise SystemExit("there is no C compiler on the PATH: gcc, cc or clang")
    with tempfile.TemporaryDirectory(prefix="rlemu-sweep-") as room:
        library = f"{room}/faults.so"
        subprocess.run([compiler, "-O2", "-fPIC", "-shared", "-o", library, f"{TOP}/bin/faults.c"], check=True)
        yield room, library


def limited():
    resource.setrlimit(resource.RLIMIT_AS, (BYTES, BYTES))


class Ran:
    """How one run of the program ended: `status` None where it did not within the limits."""

    def __init__(self, text, words=("run",), environment=None):
        try:
            ran = subprocess.run([PROGRAM, *words], input=text, capture_output=True, timeout=SECONDS, env={**os.environ, **(environment or {})}, preexec_fn=limited)
            self.status, self.printed = ran.returncode, ran.stdout
        except subprocess.TimeoutExpired:
            self.status, self.printed = None, b""

    def __str__(self):
        if self.status is None:
            return f"no end within {SECONDS} seconds"
        return f"status {self.status}, last line {self.printed.splitlines()[-1:] or ['none']}"


def counts(text, room, library):
    """How often the program allocates, reads and writes in a run on this input, and the run itself."""
    path = f"{room}/counts-{os.getpid()}"
    ran = Ran(text, environment={"LD_PRELOAD": library, "RLEMU_COUNTS": path})
    with open(path, encoding="ascii") as file:
        return ran, [int(word) for word in file.read().split()]


def on_all(task, items):
    """The answers of a task for items, in their order, on all processors."""
    with concurrent.futures.ThreadPoolExecutor(os.cpu_count()) as pool:
        yield from zip(items, pool.map(task, items))


def inputs(words):
    """The inputs that are named on the command line, or else all examples, by name."""
    names = words or sorted(f"{TOP}/examples/{name}" for name in os.listdir(f"{TOP}/examples") if name.endswith(".rlemu"))
    for name in names:
        with open(name, "rb") as file:
            yield os.path.basename(name), file.read()


def is_front(part, whole):
    return whole.startswith(part)
