"""Where a stack breaks a rule: for bin/rlemu-explain, which tells it beside what the program says. The program's own reading, which is
proved, decides; this one only helps to find the place, and it may name more places than one."""
import re

NAME = re.compile(r"[a-z0-9._-]{1,64}")
SUBJECT = re.compile(rf"\*|{NAME.pattern}(/{NAME.pattern})?")
POLICIES = ("strict", "last", "first", "round", "weighted")
WIDE = {1: 255, 2: 65_535, 4: 4_294_967_295}
# Of each table: its keys, each with what its value is, and whether it has to be there. A pair is a range.
TIMES = {key: ((0, 1_000_000), False) for key in ("r", "a", "retry")}
END = {"node": ("node", True), "app": ("app", True), "label": ("name", True)}
SHAPES = {
    "top": {"nodes": ("list", True), "rounds": (("auto", "manual"), False), "wire": ("list", False), "dif": ("list", False)},
    "wire": {
        "name": ("name", True), "ends": ("ends", True), "delay": ((1, 100_000), True), "life": ((1, 100_000), True),
        "largest": ((1, 65_535), True), "storm": ("table", False),
    },
    "storm": {"seed": ((0, 2**53 - 1), True), **{key: ((0, 1_000), True) for key in ("lose", "repeat")}, "spread": ((0, 100_000), True)},
    "dif": {
        "name": ("name", True), "rank": ((1, 8), True), "static": ("truth", False), "pdu": ((18, 4_096), True), "widths": ("table", True),
        "queue": ((1, 256), True), "policy": ("policy", True), "wait": ((1, 1_000_000), True), "manage": ("table", True), "cube": ("list", True),
        "member": ("list", True), "default": ("truth", False), "rule": ("list", False), "link": ("list", False), "flow": ("list", False),
    },
    "widths": {key: ("width", True) for key in ("addr", "cep", "len", "seq")},
    "manage": {
        "mpl": ((1, 1_000_000), True), "r": ((0, 1_000_000), True), "a": ((0, 1_000_000), True), "retry": ((0, 1_000_000), True),
        "window": ((1, 256), True),
    },
    "cube": {
        "id": ((1, 255), True), "kind": (("datagram", "loose", "reliable"), True), "mpl": ((1, 1_000_000), True), "window": ((1, 256), True),
        "largest": ((1, 65_535), True), **TIMES,
    },
    "member": {"node": ("node", True), "addr": ((0, 4_294_967_295), True)},
    "rule": {"subject": ("subject", True), "act": (("allocate", "enrol"), True), "allow": ("truth", True)},
    "link": {"on": ("on", True), "a": ("node", True), "b": ("node", True), "weight": ((1, 65_535), False), "cube": ((0, 255), False)},
    "flow": {"cube": ((0, 255), True), "from": ("table", True), "to": ("table", True)},
    "end": END,
}
# Tables within a wire or a DIF: their key, which is their shape too, and whether they are rows of a list.
WITHIN = {
    "top": [],
    "wire": [("storm", False)],
    "dif": [("widths", False), ("manage", False), *((it, True) for it in ("cube", "member", "rule", "link", "flow"))],
}
# What the value of a key has to be, in words.
WANTED = {
    "list": "a list", "table": "a table", "ends": "a list of two strings", "truth": "`true` or `false`",
    "width": "a whole number",
}


def rows(table, key):
    found = table.get(key) if isinstance(table, dict) else None
    return [it for it in found if isinstance(it, dict)] if isinstance(found, list) else []


def number(table, key, default=0):
    found = table.get(key, default)
    return found if type(found) is int else default


def told(shape, at, table):
    """How a table is called where something is said of it."""
    key = {"cube": "id", "member": "node", "rule": "subject"}.get(shape)
    if shape in ("link", "flow"):
        ends = (table.get("a", "?"), table.get("b", "?")) if shape == "link" else tuple(part(table, it).get("label", "?") for it in ("from", "to"))
        return f"{shape} {at + 1} ({' - '.join(str(it) for it in ends)})"
    return f"{shape} {at + 1}" + (f" ({key} {table[key]})" if key in table else "")


def part(table, key):
    found = table.get(key)
    return found if isinstance(found, dict) else {}


class Stack:
    """A stack as Python's tomllib reads it, with its items in the order in which they are counted."""

    def __init__(self, table):
        self.top, self.wires, self.difs = table, rows(table, "wire"), rows(table, "dif")
        self.nodes = [it for it in table.get("nodes", []) if isinstance(it, str)] if isinstance(table.get("nodes", []), list) else []

    def items(self):
        yield 0, "top", self.top
        yield from ((1 + at, "wire", it) for at, it in enumerate(self.wires))
        yield from ((1 + len(self.wires) + at, "dif", it) for at, it in enumerate(self.difs))

    def tables(self):
        """Each table: its item, its shape, how it is called, and itself."""
        for item, shape, table in self.items():
            yield item, shape, "", table
            for key, is_list in WITHIN[shape]:
                for at, it in enumerate(rows(table, key) if is_list else [table[key]] if isinstance(table.get(key), dict) else []):
                    called = told(key, at, it) if is_list else f"`{key}`"
                    yield item, key, called, it
                    for end in ("from", "to") if key == "flow" else []:
                        if part(it, end):
                            yield item, "end", f"{called}, `{end}`", part(it, end)

    def number_of(self, dif):
        return 1 + len(self.wires) + self.difs.index(dif)

    def below(self, link):
        """The wire or DIF that carries a link."""
        return next((it for it in [*self.wires, *self.difs] if it.get("name") == link.get("on")), None)

    def each(self, key):
        for dif in self.difs:
            for at, it in enumerate(rows(dif, key)):
                yield self.number_of(dif), dif, told(key, at, it), it


def fits(kind, value):
    """Whether a value has the type that its key wants."""
    if isinstance(kind, tuple) and type(kind[0]) is int:
        return type(value) is int
    if isinstance(kind, tuple):
        return value in kind
    if kind == "ends":
        return isinstance(value, list) and len(value) == 2 and all(isinstance(it, str) for it in value)
    return {"list": list, "table": dict, "truth": bool, "width": int}.get(kind, str) is type(value)


def wanted(kind):
    """What the value of such a key has to be, in words."""
    if isinstance(kind, tuple):
        return "a whole number, without quotes or a point" if type(kind[0]) is int else " or ".join(f'`"{it}"`' for it in kind)
    return WANTED.get(kind, "a string, in quotes")


def written(value):
    """A value as it may stand in TOML."""
    if isinstance(value, str):
        return f'"{value}"'
    if isinstance(value, list):
        return f"[{', '.join(map(written, value))}]"
    if isinstance(value, dict):
        return "{ " + ", ".join(f"{key} = {written(it)}" for key, it in value.items()) + " }"
    return str(value).lower() if isinstance(value, bool) else str(value)


def short(value, most=60):
    text = written(value)
    return text if len(text) <= most else text[:most] + ".."


def rule_2(stack):
    for item, shape, called, table in stack.tables():
        for key in table:
            if key not in SHAPES[shape]:
                yield item, called, f"`{key}` is no key of this table; it has {', '.join(SHAPES[shape])}"


def rule_3(stack):
    for item, shape, called, table in stack.tables():
        for key, (kind, is_needed) in SHAPES[shape].items():
            if key not in table and is_needed:
                yield item, called, f"`{key}` is missing"
            elif key in table and not fits(kind, table[key]):
                yield item, called, f"`{key} = {short(table[key])}`, and this key wants {wanted(kind)}"
            elif key in table and kind == "list":
                want = str if key == "nodes" else dict
                each = "a string" if key == "nodes" else "a table"
                yield from ((item, called, f"an element of `{key}` is `{short(it)}`, and each has to be {each}") for it in table[key] if type(it) is not want)


def rule_4(stack):
    yield from ((0, "", f"`{it}` is no name") for it in stack.nodes if not NAME.fullmatch(it))
    for item, shape, called, table in stack.tables():
        for key, (kind, _) in SHAPES[shape].items():
            texts = table.get(key) if kind == "ends" else [table.get(key)]
            if kind in ("name", "app", "node", "on", "policy", "ends") and isinstance(texts, list):
                yield from ((item, called, f"`{key}`: `{written(it)}` is no name") for it in texts if isinstance(it, str) and not NAME.fullmatch(it))
            if kind == "subject" and isinstance(table.get(key), str) and not SUBJECT.fullmatch(table[key]):
                yield item, called, f"`{key} = {written(table[key])}` is no application, no IPC process as `dif/node`, and not `*`"


def rule_5(stack):
    seen = set()
    for it in stack.nodes:
        if it in seen:
            yield 0, "", f"the node `{it}` is listed twice"
        seen.add(it)
    names, labels = set(), set()
    for item, shape, table in stack.items():
        if shape != "top" and str(table.get("name")) in names:
            yield item, "", f"the name `{table.get('name')}` stands before"
        names.add(str(table.get("name")))
    for item, shape, called, table in stack.tables():
        label = str(table.get("label"))
        if shape == "end" and label in labels:
            yield item, called, f"the label `{label}` stands before"
        labels |= {label} if shape == "end" else set()


def rule_6(stack):
    for item, shape, called, table in stack.tables():
        for key, (kind, _) in SHAPES[shape].items():
            value = table.get(key)
            if type(value) is int and kind == "width" and value not in WIDE:
                yield item, called, f"`{key} = {value}` is not 1, 2 or 4"
            elif type(value) is int and isinstance(kind, tuple) and type(kind[0]) is int and not kind[0] <= value <= kind[1]:
                yield item, called, f"`{key} = {value}` is not from {kind[0]} to {kind[1]}"


def rule_7(stack):
    facilities = [it.get("name") for it in [*stack.wires, *stack.difs]]
    for item, shape, called, table in stack.tables():
        for key, (kind, _) in SHAPES[shape].items():
            texts = table.get(key) if kind == "ends" else [table.get(key)]
            known = {"node": stack.nodes, "ends": stack.nodes, "on": facilities, "policy": POLICIES}.get(kind)
            if known is not None and isinstance(texts, list):
                yield from ((item, called, f"`{key}`: there is no `{it}`, but {', '.join(map(str, known))}") for it in texts if isinstance(it, str) and it not in known)


def rule_8(stack):
    for at, it in enumerate(stack.wires):
        ends = it.get("ends", [])
        if isinstance(ends, list) and len(ends) == 2 and ends[0] == ends[1]:
            yield 1 + at, "", f"both ends are `{ends[0]}`"
        spread = number(part(it, "storm"), "spread")
        if number(it, "delay") + spread > number(it, "life"):
            late = f"and the storm's `spread = {spread}` exceed" if spread else "exceeds"
            yield 1 + at, "", f"`delay = {it.get('delay')}` {late} `life = {it.get('life')}`"


def rule_9(stack):
    ranks = {number(it, "rank") for it in stack.difs}
    for it in stack.difs:
        if number(it, "rank") > 1 and number(it, "rank") - 1 not in ranks:
            yield stack.number_of(it), "", f"`rank = {it['rank']}`, and there is no DIF of rank {it['rank'] - 1}"


def twice(stack, rule_key, key):
    for dif in stack.difs:
        seen = set()
        for at, it in enumerate(rows(dif, rule_key)):
            if it.get(key) in seen:
                yield stack.number_of(dif), told(rule_key, at, it), f"`{key} = {written(it.get(key))}` stands before"
            seen.add(it.get(key))
        if not rows(dif, rule_key):
            yield stack.number_of(dif), "", f"`{rule_key}` is empty"


def rule_10(stack):
    yield from twice(stack, "cube", "id")


def timing(cube):
    r, a, retry = (number(cube, it) for it in ("r", "a", "retry"))
    if cube.get("kind", "reliable") != "reliable":
        return f"a {cube.get('kind')} cube has no `r`, `a` or `retry`" if r or a or retry else None
    if not r or not retry:
        return f"a reliable cube needs `r` and `retry`, and has r = {r}, retry = {retry}"
    return f"`retry = {retry}` exceeds `r = {r}`" if retry > r else None


def rule_11(stack):
    for dif in stack.difs:
        cubes = [("`manage`", part(dif, "manage")), *((told("cube", at, it), it) for at, it in enumerate(rows(dif, "cube")))]
        yield from ((stack.number_of(dif), called, timing(it)) for called, it in cubes if timing(it))


def rule_12(stack):
    yield from twice(stack, "member", "node")
    yield from (it for it in twice(stack, "member", "addr") if "empty" not in it[2])
    for item, dif, called, it in stack.each("member"):
        most = WIDE.get(part(dif, "widths").get("addr"), 0)
        if not 0 < number(it, "addr") <= most:
            yield item, called, f"`addr = {it.get('addr')}` is not from 1 to {most}, the most that `widths.addr` holds"


def head(dif):
    """The bytes of a PDU before its piece, with the 4 of its lifetime."""
    widths = part(dif, "widths")
    return 8 + sum(number(widths, it) * times for it, times in (("addr", 2), ("cep", 2), ("len", 1), ("seq", 1)))


def rule_13(stack):
    for dif in stack.difs:
        pdu, widths = number(dif, "pdu"), part(dif, "widths")
        most = WIDE.get(widths.get("len"), 0)
        if pdu > most:
            yield stack.number_of(dif), "", f"`pdu = {pdu}`, and `len = {widths.get('len')}` tells up to {most}"
        if pdu <= head(dif):
            yield stack.number_of(dif), "", f"`pdu = {pdu}`, and {head(dif)} bytes stand before a piece"
        elif pdu < head(dif) + number(widths, "seq"):
            yield stack.number_of(dif), "", f"`pdu = {pdu}`, and an acknowledgement has {head(dif) + number(widths, 'seq')} bytes"


def rule_14(stack):
    for dif in stack.difs:
        piece, queue, item = number(dif, "pdu") - head(dif), number(dif, "queue"), stack.number_of(dif)
        manage = {**part(dif, "manage"), "kind": "reliable", "largest": 325}
        for called, it in [("`manage`", manage), *((told("cube", at, it), it) for at, it in enumerate(rows(dif, "cube")))]:
            largest, window = number(it, "largest"), number(it, "window")
            if it.get("kind") == "datagram" and largest > piece:
                yield item, called, f"`largest = {largest}`, and a piece has {piece} bytes"
            elif it.get("kind") != "datagram" and piece > 0 and largest > piece * min(window, queue):
                yield item, called, f"{largest} bytes need {-(-largest // piece)} pieces of {piece}, and `window` is {window}, `queue` {queue}"


def is_static(dif):
    return dif.get("static") is True


def rule_15(stack):
    for dif in stack.difs:
        if not is_static(dif) and (rows(dif, "link") or rows(dif, "flow")):
            yield stack.number_of(dif), "", "it has links or flows, and `static = true` is not there"
    for item, dif, called, it in stack.each("link"):
        below = stack.below(it)
        if is_static(dif) and below in stack.difs and not is_static(below):
            yield item, called, f"`{it['on']}` is not static"


def rule_16(stack):
    on = {}
    for item, dif, called, it in stack.each("link"):
        below = stack.below(it)
        if below is None:
            continue
        is_wire = below in stack.wires
        rank = 0 if is_wire else number(below, "rank")
        there = below.get("ends", []) if is_wire else [m.get("node") for m in rows(below, "member")]
        here = [m.get("node") for m in rows(dif, "member")]
        if is_wire and it.get("on") in on:
            yield 1 + stack.wires.index(below), "", f"the wire `{it['on']}` has two links: {on[it['on']]}, and {called} of `{dif.get('name')}`"
        on.setdefault(it.get("on"), f"{called} of `{dif.get('name')}`")
        if rank + 1 != number(dif, "rank"):
            yield item, called, f"`on = \"{it['on']}\"` has rank {rank}, and this DIF rank {dif.get('rank')}"
        if it.get("a") == it.get("b"):
            yield item, called, "its ends are equal"
        for end in (it.get("a"), it.get("b")):
            if end not in here:
                yield item, called, f"`{end}` has no member of this DIF"
            if end not in there:
                yield item, called, f"`{end}` is no {'end' if is_wire else 'member'} of `{it['on']}`"


def rule_17(stack):
    for item, dif, called, it in stack.each("link"):
        below, cube, pdu = stack.below(it), number(it, "cube"), number(dif, "pdu")
        if below in stack.wires and cube:
            yield item, called, "its `on` is a wire, which has no cubes: leave `cube` out"
        elif below in stack.difs and cube not in [number(c, "id") for c in rows(below, "cube")]:
            ids = ", ".join(str(c.get("id")) for c in rows(below, "cube"))
            yield item, called, f"`cube = {cube}`{'' if 'cube' in it else ' (none is written)'}, and `{it['on']}` has the cubes {ids}"
        elif below is not None:
            largest = max([number(c, "largest") for c in ([below] if below in stack.wires else rows(below, "cube")) if below in stack.wires or number(c, "id") == cube])
            if largest < pdu:
                yield item, called, f"`pdu = {pdu}` of this DIF, and `largest = {largest}` below"


def joined(dif, one, other):
    reach = {one}
    for _ in rows(dif, "link"):
        for it in rows(dif, "link"):
            reach |= {it.get("a"), it.get("b")} if reach & {it.get("a"), it.get("b")} else set()
    return other in reach


def rule_18(stack):
    for item, dif, called, it in stack.each("flow"):
        ends, members = [part(it, end).get("node") for end in ("from", "to")], [m.get("node") for m in rows(dif, "member")]
        if number(it, "cube") not in [number(c, "id") for c in rows(dif, "cube")]:
            yield item, called, f"this DIF has no cube {it.get('cube')}, but {', '.join(str(c.get('id')) for c in rows(dif, 'cube'))}"
        if ends[0] == ends[1]:
            yield item, called, f"both its ends are on `{ends[0]}`"
        lost = [end for end in ends if end not in members]
        yield from ((item, called, f"`{end}` has no member of this DIF") for end in lost)
        if not lost and not joined(dif, *ends):
            yield item, called, f"no walk of links joins `{ends[0]}` and `{ends[1]}`"
    for item, _, called, it in stack.each("link"):
        below = stack.below(it)
        if below in stack.difs and not joined(below, it.get("a"), it.get("b")):
            yield item, called, f"no walk of links of `{it['on']}` joins `{it.get('a')}` and `{it.get('b')}`"


def rule_19(stack):
    for what, found, most in (("nodes", stack.nodes, 64), ("wires", stack.wires, 128), ("DIFs", stack.difs, 16)):
        if len(found) > most:
            yield 0, "", f"{len(found)} {what}, and at most {most} may be"
    for dif in stack.difs:
        for what, most in (("member", 64), ("cube", 8), ("rule", 256)):
            if len(rows(dif, what)) > most:
                yield stack.number_of(dif), "", f"{len(rows(dif, what))} rows of `{what}`, and at most {most} may be"
        for it in rows(dif, "member"):
            node, ids = it.get("node"), WIDE.get(part(dif, "widths").get("cep"), 0)
            links = [link for link in rows(dif, "link") if node in (link.get("a"), link.get("b"))]
            above = [link for _, _, _, link in stack.each("link") if link.get("on") == dif.get("name") and node in (link.get("a"), link.get("b"))]
            flows = [flow for flow in rows(dif, "flow") if node in (part(flow, "from").get("node"), part(flow, "to").get("node"))]
            if len(links) > 16:
                yield stack.number_of(dif), "", f"`{node}` has {len(links)} links, and at most 16 may be"
            if len(flows) + len(above) > ids:
                yield stack.number_of(dif), "", f"`{node}` needs {len(flows) + len(above)} CEP-ids, and has {ids}"


RULES = {
    2: rule_2, 3: rule_3, 4: rule_4, 5: rule_5, 6: rule_6, 7: rule_7, 8: rule_8, 9: rule_9, 10: rule_10, 11: rule_11, 12: rule_12,
    13: rule_13, 14: rule_14, 15: rule_15, 16: rule_16, 17: rule_17, 18: rule_18, 19: rule_19,
}


def places(table, rule, item):
    """The places of an item at which a rule is broken, as texts."""
    found = RULES[rule](Stack(table)) if rule in RULES else []
    return [f"{called}: {text}" if called else text for at, called, text in found if at == item]
