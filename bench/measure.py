"""Measures two programs on the scenarios of make_input.py, and prints a table; then rlemu alone beside idle flows, on allocations and on
enrolments, and prints a table for each.

    python3 measure.py RLEMU PLAIN MAKE_INPUT WORK_FOLDER

Instructions are counted by valgrind's callgrind at 1,000 and 3,000 SDUs, and the difference divided by 2,000, so
that the start counts for nothing. Seconds and peak memory are those of one run at 10,000, 100,000 and 1,000,000 SDUs.

The instructions, seconds and memory of allocations and enrolments are those of whole runs. Each run is looked at before: each flow has to be allocated
at both ends; the last member has to be enrolled, and the first and the last have to keep the items of all members.
"""
import os
import re
import resource
import subprocess
import sys
import time

SCENARIOS = [
    ("one wire", ["W"], None),
    ("one DIF, datagrams", ["A"], ["A"]),
    ("five hops, reliable, no loss", ["B", "0"], ["B", "0"]),
    ("five hops, reliable, 5 % loss", ["B", "50"], ["B", "50"]),
    ("four ranks", ["C", "4"], ["C", "4"]),
    ("eight ranks", ["C", "8"], ["C", "8"]),
]
COUNTS = (10_000, 100_000, 1_000_000)

NONE = [None] * (1 + 2 * len(COUNTS))

# Flows of one DIF, of which one sends.
IDLE = [
    ("two members, no idle flow", ["I", "0"]),
    ("- 64 idle flows", ["I", "64"]),
    ("- 249 idle flows", ["I", "249"]),
    ("a ring of 16 members, no idle flow", ["R", "16", "1"]),
    ("- 31 idle flows", ["R", "16", "32"]),
]

# How many flows are allocated in one run.
FLOWS = (250, 500, 1000)

# The shapes of a DIF that grows: how many others enrol at one member at most.
SHAPES = [("chain", "1"), ("tree", "8")]
MEMBERS = (8, 16, 32, 64)


def input_of(make, work, words, count):
    path = os.path.join(work, "-".join(words) + f"-{count}")
    if not os.path.exists(path):
        with open(path, "wb") as f:
            subprocess.run(["python3", make, words[0], str(count)] + words[1:], stdout=f, check=True)
    return path


def status(command, path):
    """Runs a command on an input; answers its status, seconds, and peak memory in MiB."""
    with open(path, "rb") as f:
        start = time.monotonic()
        child = subprocess.Popen(command, stdin=f, stdout=subprocess.DEVNULL, stderr=subprocess.DEVNULL)
        _, ended, used = os.wait4(child.pid, 0)
        seconds = time.monotonic() - start
    return os.waitstatus_to_exitcode(ended), seconds, used.ru_maxrss / 1024


def instructions(command, path, work):
    out = os.path.join(work, "callgrind")
    with open(path, "rb") as f:
        done = subprocess.run(["valgrind", "--tool=callgrind", f"--callgrind-out-file={out}"] + command,
                              stdin=f, stdout=subprocess.DEVNULL, stderr=subprocess.PIPE, text=True)
    return int(re.search(r"Collected : (\d+)", done.stderr).group(1))


def measured(command, make, work, words):
    """Instructions for one more SDU, then seconds and MiB at each of the counts; None where it does not run."""
    if status(command, input_of(make, work, words, 10))[0] != 0:
        return None
    row = [one_more(command, make, work, words)]
    for count in COUNTS:
        path = input_of(make, work, words, count)
        _, seconds, peak = status(command, path)
        os.remove(path)
        row += [seconds, peak]
    return row


def one_more(command, make, work, words):
    """The instructions for one more SDU."""
    few, many = (instructions(command, input_of(make, work, words, n), work) for n in (1000, 3000))
    return (many - few) / 2000


def idle_flows(command, make, work):
    """Prints for each scenario with idle flows the instructions for one more SDU, and the seconds of 100,000."""
    print("| scenario | instructions for one more SDU | s at 100,000 |")
    print("|---|---|---|")
    for name, words in IDLE:
        count = one_more(command, make, work, words)
        _, seconds, _ = status(command, input_of(make, work, words, 100_000))
        print(f"| {name} | {count:,.0f} | {seconds:.2f} |", flush=True)


def are_allocated(command, path, flows):
    """Whether the run ends well, with each flow allocated at both ends."""
    with open(path, "rb") as f:
        done = subprocess.run(command, stdin=f, stdout=subprocess.PIPE, stderr=subprocess.DEVNULL, text=True)
    return done.returncode == 0 and done.stdout.count(" ok allocated\n") == 2 * flows


def allocations(command, make, work):
    """Prints for each number of flows the instructions of a run, behind them how many times those of half as many, seconds and MiB."""
    print("| flows allocated | instructions | s | MiB |")
    print("|---|---|---|---|")
    before = None
    for flows in FLOWS:
        path = input_of(make, work, ["M"], flows)
        if not are_allocated(command, path, flows):
            print(f"| {flows} | - | - | - |")
            continue
        _, seconds, peak = status(command, path)
        count = instructions(command, path, work)
        print(f"| {flows:,} | {cell(count, before, '{:,}')} | {seconds:.2f} | {peak:.0f} |", flush=True)
        before = count


def is_grown(command, path, members):
    """Whether the run ends well, with its last member enrolled, and all members and their links known at the first and at the last."""
    with open(path, "rb") as f:
        done = subprocess.run(command, stdin=f, stdout=subprocess.PIPE, stderr=subprocess.DEVNULL, text=True)
    shown = [len(re.findall(rf" obj /{kind}/\d+ value ", done.stdout)) for kind in ("member", "link")]
    return done.returncode == 0 and " ok enrolled\n" in done.stdout and shown == [2 * members] * 2


def enrolments(command, make, work):
    """Prints for each shape and number of members the instructions, behind them how many times those of half as many, seconds and MiB."""
    print("| members | " + " | ".join(f"{name}: instructions | s | MiB" for name, _ in SHAPES) + " |")
    print("|---" * (1 + 3 * len(SHAPES)) + "|")
    before = [None] * len(SHAPES)
    for members in MEMBERS:
        row = []
        for at, (_, children) in enumerate(SHAPES):
            path = input_of(make, work, ["E", children], members)
            if not is_grown(command, path, members):
                row += ["-"] * 3
                continue
            _, seconds, peak = status(command, path)
            count = instructions(command, path, work)
            row += [cell(count, before[at], "{:,}"), f"{seconds:.2f}", f"{peak:.0f}"]
            before[at] = count
        print(f"| {members} | " + " | ".join(row) + " |", flush=True)


def cell(value, other, form):
    if value is None:
        return "-"
    text = form.format(value)
    return text if other is None else f"{text} ({value / other:.1f})"


def main():
    rlemu, plain, make, work = sys.argv[1:]
    resource.setrlimit(resource.RLIMIT_CORE, (0, 0))
    print("| scenario | instructions for one more SDU | " + " | ".join(f"s at {count:,} | MiB" for count in COUNTS) + " |")
    print("|---" * (2 + 2 * len(COUNTS)) + "|")
    for name, words, plain_words in SCENARIOS:
        ours = measured([rlemu, "run"], make, work, words) or NONE
        theirs = NONE
        if plain_words:
            theirs = measured([plain] + plain_words, make, work, words) or NONE
        forms = ["{:,.0f}"] + ["{:.2f}", "{:,.0f}"] * len(COUNTS)
        print(f"| {name} | " + " | ".join(cell(*each) for each in zip(ours, theirs, forms)) + " |", flush=True)
        if plain_words:
            print("| - the plain program | " + " | ".join(cell(t, None, f) for t, f in zip(theirs, forms)) + " |", flush=True)
    for table in (idle_flows, allocations, enrolments):
        print()
        table([rlemu, "run"], make, work)


main()
