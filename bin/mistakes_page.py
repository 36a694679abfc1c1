"""Makes docs/MISTAKES.md of the entries of docs/mistakes.txt."""

HEAD = """# Mistakes, and how to mend them

What a fault or a refusal can come from, with an example of each and its mend. `bin/rlemu-explain` says the same of one note, and names the
place in your stack or schedule:

    $ bin/rlemu-explain 'fault StackRule 8 2' examples/mistake.rlemu
    The stack breaks rule 8: a wire's ends are equal, or its delay and spread exceed its life.
      Item 2 is the wire `w2`, from line 9 on.
      There: both ends are `b`.

(and the causes with their mends). This page is printed by `bin/rlemu-explain --page` from `docs/mistakes.txt`: change that file.
`bin/check-explain` compares both, and `bin/check-explain --try` runs each example that is told here.

## How items are counted

`fault StackRule N ITEM`: item 0 is the top, then the wires are counted from 1 as they stand in the stack, and the DIFs go on from there. Cubes, members,
links and flows are no items: their item is their DIF. In `examples/two-ranks.rlemu` `w1` is item 1, `w2` item 2, `d1` item 3 and `d2` item 4. The
rules are tried in the order of their numbers, each over the whole stack: so a stack with two mistakes is told the one of the lesser rule, and of one rule
the lesser item. Mend it and run again. (Of rule 16, a wire with two links comes before any DIF.)

## The rules of stacks

Each example is an edit of `examples/two-ranks.rlemu`: the first text stands there once, and the second takes its place. `⏎` is the end of a line.
"""
TOML = """
## The stack is no TOML

`fault NotToml` names no line. Python from 3.11 on does, where `INPUT` is your input:

    sed '/^%%$/,$d' INPUT | python3 -c 'import sys, tomllib; tomllib.load(sys.stdin.buffer)'

`bin/rlemu-explain 'fault NotToml' INPUT` does that and shows the line. What is read is TOML 1.1.0, in UTF-8; tomllib reads TOML 1.0, so it
refuses a few texts that `rlemu` reads (below), and then names a place that is none. Lines end with a line feed, or a carriage return and a line feed. A
byte order mark may stand at the very beginning. Brackets and braces may stand 80 deep within one another.
"""
SCHEDULE = """
## The lines of a schedule

`fault Schedule LINE N FIELD`: the line LINE, counted from 1 behind `%%` with blank lines and comments among them, is outside the grammar. FIELD is
the field where that shows: field 0 is the word, and fields stand apart by blanks. The lines before it have run, and their notes stand above.
`bin/rlemu-explain 'fault Schedule 5 3 1' INPUT` shows the line and marks the field.
"""
NOTES = """
## The notes

A refusal is `no NAME FIELDS`, and the run goes on. A write-off is told by `off KEY NAME FIELDS`, a failure by `state LABEL failed NAME FIELDS`,
an ask that is refused after `ok pending` by `state LABEL refused NAME FIELDS`.
`docs/schedules.md` has when each comes; `docs/MY_SDU_DID_NOT_COME.md` has examples of the last two.
"""


def code(text, most=110):
    text = text.replace("\\n", " ⏎ ").strip()
    return f"`{text if len(text) <= most else text[:most] + '..'}`"


def example(it):
    if "line" in it:
        return code(it["line"].replace("\t", "⇥"))
    if "edit" not in it:
        return ""
    old, _, new = it["edit"].partition(" =>")
    if old == "===":
        return code(new)
    return f"{code(old)} → {code(new) if new.strip() else '(nothing)'}"


def told(it, kind):
    if "told" not in it:
        return ""
    if kind == "schedule":
        return f"`fault Schedule 1 {it['told']}`"
    return "it runs" if it["told"] == "runs" else f"`fault {it['told']}`"


def table(heads, rows):
    lines = [heads, ["---"] * len(heads), *rows]
    return "".join("| " + " | ".join(it.replace("|", "\\|") for it in line) + " |\n" for line in lines)


def causes(entry):
    return table(["Cause", "Example", "Told", "Mend"], [[it["cause"], example(it), told(it, entry.kind), it["mend"]] for it in entry.causes])


def notes(entries, kind, head):
    rows = [[code(" ".join(it.words)), it.texts["says"].replace("{", "").replace("}", ""), it.texts.get("mend", "")] for it in entries if it.kind == kind]
    return f"\n### {head}\n\n" + table(["Text", "What it says", "Mend"], rows)


def page(entries):
    of = lambda kind: [it for it in entries if it.kind == kind]
    text = HEAD
    for it in of("rule"):
        text += f"\n### Rule {it.words[0]}: {it.texts['says']}\n\nItem: {it.texts['item']}.\n\n" + causes(it)
    text += TOML + "\n" + table(["Cause", "Example", "Told", "Mend"], [[it.texts["toml"], example(it.texts), told(it.texts, it.kind), it.texts["mend"]] for it in of("toml")])
    text += "\nThis is no fault of TOML:\n\n" + table(["What", "Example", "Told"], [[it.texts["allowed"], example(it.texts), told(it.texts, it.kind)] for it in of("allowed")])
    text += SCHEDULE
    for it in of("schedule"):
        text += f"\n### {it.words[0]}: {it.texts['says']}\n\n" + causes(it)
    text += NOTES + notes(entries, "refusal", "Refusals") + notes(entries, "off", "Causes of a write-off") + notes(entries, "fail", "Causes of a failure")
    text += notes(entries, "why", "Why an ask is refused after `ok pending`")
    return text
