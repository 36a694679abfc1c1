"""Reads docs/mistakes.txt, the one source of what bin/rlemu-explain says and of docs/MISTAKES.md."""
import os

TOP = os.path.dirname(os.path.dirname(os.path.realpath(__file__)))
SOURCE, BASE, HELLO = (f"{TOP}/{it}" for it in ("docs/mistakes.txt", "examples/two-ranks.rlemu", "examples/hello.rlemu"))
MARK = "\n%%\n"
# The keys that begin an entry; the others belong to the entry before, or, behind a `cause`, to that cause.
KINDS = ("rule", "schedule", "toml", "allowed", "refusal", "off", "fail", "why", "state", "clock", "said", "fault")


class Entry:
    """One meaning: its kind, its words, its texts by key, and its causes, each with its own texts."""

    def __init__(self, kind, words):
        self.kind, self.words, self.texts, self.causes = kind, words, {}, []

    def tries(self):
        """Each input that shows it, with what is told of it."""
        for it in [self.texts, *self.causes]:
            if "told" in it:
                yield it


def read():
    entries, texts, key = [], {}, ""
    with open(SOURCE, encoding="utf-8") as file:
        for line in file.read().splitlines():
            if line.startswith("  "):
                texts[key] += " " + line.strip()
            elif line and not line.startswith("#"):
                key, _, text = line.partition(" ")
                if key in KINDS:
                    entries.append(Entry(key, text if key in ("toml", "allowed") else text.split()))
                    texts = entries[-1].texts
                elif key == "cause":
                    entries[-1].causes.append({})
                    texts = entries[-1].causes[-1]
                texts[key] = text
    return entries


def plain(text):
    for one, other in (("\\n", "\n"), ("\\r", "\r"), ("\\ufeff", "\ufeff")):
        text = text.replace(one, other)
    return text


def edited(edit):
    """The input that an edit makes, as bytes."""
    with open(BASE, encoding="utf-8") as file:
        base = file.read()
    old, _, new = edit.partition(" =>")
    old, new = plain(old), plain(new[1:])
    if old == "===":
        text = new + base[base.index(MARK):]
    elif base.count(old) != 1:
        raise ValueError(f"{edit}: stands there {base.count(old)} times")
    else:
        text = base.replace(old, new)
    parts = [it.encode() for it in text.split("\\xff")]
    return b"\xff".join(parts)


def tries():
    """Each input of the page, and the last note that is told of it, or None where it runs."""
    with open(HELLO, encoding="utf-8") as file:
        hello = file.read().partition(MARK)[0] + MARK
    for entry in read():
        for it in entry.tries():
            if entry.kind == "schedule":
                yield (hello + it["line"] + "\n").encode(), f"fault Schedule 1 {it['told']}"
            else:
                yield edited(it["edit"]), None if it["told"] == "runs" else f"fault {it['told']}"
