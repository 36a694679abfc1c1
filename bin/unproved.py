"""What bin/rlemu-try and bin/rlview share: they build a program of this repository without proof, by `rt try`, and run it."""
import os
import re
import shutil
import subprocess
import sys
import threading

TOP = os.path.dirname(os.path.dirname(os.path.realpath(__file__)))
ENDED = re.compile(r"run=ended status=(\d+) ")
OTHER_WORDS, NO_RT, INTERRUPTED = 1, 12, 130


def say(text):
    print(f"{os.path.basename(sys.argv[0])}: {text}", file=sys.stderr, flush=True)


def refused(words, usage):
    """Says that there is no such command, unless help was asked for, and how the script is used."""
    if words and words[0] not in ("-h", "--help"):
        say(f"there is no command `{' '.join(words)}`")
    print(usage, end="", file=sys.stderr)
    return OTHER_WORDS


def has_rt():
    if not shutil.which("rt"):
        say("there is no rt on the PATH: it is the command in the kit's folder bin/ (README.md names the kit)")
        return False
    return True


def remind(ended):
    """Tells each minute that the build or the run goes on."""
    minutes = 0
    while not ended.wait(60):
        minutes += 1
        say(f"goes on: {minutes} minute{'s' if minutes > 1 else ''} gone")


def tried(crate, words, quiet=False, stdin=None):
    """Calls `rt try` in the crate, and gives its status and that of the program, if it ended. What `rt try` says is passed on, line by
    line, or with `quiet` only where the program did not end. `stdin` is a file to be read in place of standard input."""
    own, kept, ended = None, [], threading.Event()
    threading.Thread(target=remind, args=[ended], daemon=True).start()
    how = {"cwd": f"{TOP}/crates/{crate}", "stdin": stdin, "stderr": subprocess.PIPE, "text": True, "errors": "replace"}
    with subprocess.Popen(["rt", "try", *words], **how) as ran:
        for line in ran.stderr:
            kept.append(line)
            if not quiet:
                sys.stderr.write(line)
                sys.stderr.flush()
            found = ENDED.match(line)
            own = int(found[1]) if found else own
    ended.set()
    if quiet and own is None:
        sys.stderr.writelines(kept)
    return ran.returncode, own


def status_of(status, own):
    """The program's own status where it ended, else 10 more than that of `rt try`."""
    return own if own is not None else status and status + 10


def run(main):
    """Ends with the status that `main` gives for the words of the command line."""
    try:
        sys.exit(main(sys.argv[1:]))
    except KeyboardInterrupt:
        sys.exit(INTERRUPTED)
