"""Prints an rlemu input (stack, '%%', schedule) for one of the scenarios of this bench.

    python3 make_input.py W N            two nodes, one wire, a flow on the wire itself
    python3 make_input.py A N            two nodes, one wire, one datagram flow of a DIF
    python3 make_input.py B N [LOSE]     chain of 6 nodes, reliable flow over 5 hops;
                                         the middle wire loses LOSE of 1000 frames (50)
    python3 make_input.py C N RANKS      two nodes, a tower of 1 to 8 static DIFs
    python3 make_input.py I N IDLE       as A, beside IDLE flows that send nothing (249 at most)
    python3 make_input.py R N MEMBERS FLOWS
                                         a ring of MEMBERS nodes, a wire and a link between each and the next, and FLOWS
                                         datagram flows, each over half of the ring; the first one sends
    python3 make_input.py M N            two nodes, one wire, a static DIF in which N flows are allocated one after the other
    python3 make_input.py E N CHILDREN   N members of a DIF that is not static enrol, one behind the other, each over
                                         a wire of its own at one that has CHILDREN others at most (1: a chain)

W, A, B, C, I and R send and read N SDUs of 80 zero bytes: W, A, C and I send 64 and then tick once and read, R ticks once for
each link of the way; B sends 2 in two ticks and reads after 16. M and E send none: M asks for flows, and in E the members tell
each other their items.
"""
import sys

SDU = 80
# Widths with a sequence number of 4 bytes, so that a million SDUs are one run of numbers.
WIDTHS = "{ addr = 1, cep = 1, len = 2, seq = 4 }"
PCI = 4 + 2 * 1 + 2 * 1 + 2 + 4   # pci_len of a data PDU
LIFE = 4
MAX_INPUT = 16_777_216            # what rlemu reads


def dif(name, rank, pdu, queue, mpl, cube, members, links, flow, widths=WIDTHS):
    """One static DIF as lines of TOML."""
    manage_r = 400
    lines = [
        "[[dif]]",
        f'name = "{name}"',
        f"rank = {rank}",
        "static = true",
        f"pdu = {pdu}",
        f"widths = {widths}",
        f"queue = {queue}",
        'policy = "strict"',
        "wait = 2000",
        f"manage = {{ mpl = {mpl}, r = {manage_r}, a = 2, retry = 40, window = 16 }}",
        f"cube = [ {cube} ]",
        "member = [ " + ", ".join(f'{{ node = "{n}", addr = {a} }}' for n, a in members) + " ]",
        "link = [ " + ", ".join(links) + " ]",
    ]
    if flow:
        lines.append(f"flow = [ {flow} ]")
    return lines


def wire(name, a, b, lose=0):
    lines = [
        "[[wire]]",
        f'name = "{name}"',
        f'ends = ["{a}", "{b}"]',
        "delay = 1",
        "life = 4",
        "largest = 1500",
    ]
    if lose:
        lines.append(f"storm = {{ seed = 1, lose = {lose}, repeat = 0, spread = 0 }}")
    return lines


def flow(cube, a, b, k=""):
    return (f'{{ cube = {cube}, from = {{ node = "{a}", app = "s{k}", label = "p{k}" }}, '
            f'to = {{ node = "{b}", app = "t{k}", label = "q{k}" }} }}')


def stack_w():
    return ['nodes = ["a", "b"]'] + wire("w", "a", "b")


def stack_a(idle=0):
    cube = f'{{ id = 1, kind = "datagram", mpl = 40, window = 64, largest = {SDU} }}'
    flows = ", ".join([flow(1, "a", "b")] + [flow(1, "a", "b", k) for k in range(idle)])
    return (['nodes = ["a", "b"]'] + wire("w", "a", "b")
            + dif("d", 1, SDU + PCI + LIFE, 64, 40, cube, [("a", 1), ("b", 2)],
                  ['{ on = "w", a = "a", b = "b" }'], flows))


def stack_r(members, count):
    """The k-th flow goes from the k-th node, counted around, to the one that is half of the ring further."""
    names = [f"n{k}" for k in range(members)]
    lines = ["nodes = [" + ", ".join(f'"{name}"' for name in names) + "]"]
    for k in range(members):
        lines += wire(f"w{k}", names[k], names[(k + 1) % members])
    cube = f'{{ id = 1, kind = "datagram", mpl = 200, window = 64, largest = {SDU} }}'
    links = [f'{{ on = "w{k}", a = "{names[k]}", b = "{names[(k + 1) % members]}" }}' for k in range(members)]
    ends = [(names[k % members], names[(k + members // 2) % members]) for k in range(count)]
    flows = ", ".join(flow(1, *each, k or "") for k, each in enumerate(ends))
    return lines + dif("d", 1, SDU + PCI + LIFE, 64, 200, cube, [(name, k + 1) for k, name in enumerate(names)], links, flows)


def stack_m():
    cube = f'{{ id = 1, kind = "datagram", mpl = 40, window = 64, largest = {SDU} }}'
    # (the messages about flows are longer than such an SDU, and ids are drawn once)
    widths = WIDTHS.replace("cep = 1", "cep = 2")
    return (['nodes = ["a", "b"]'] + wire("w", "a", "b")
            + dif("d", 1, 400, 64, 40, cube, [("a", 1), ("b", 2)], ['{ on = "w", a = "a", b = "b" }'], None, widths))


def stack_b(lose):
    names = [f"n{i}" for i in range(6)]
    lines = ["nodes = [" + ", ".join(f'"{n}"' for n in names) + "]"]
    for i in range(5):
        lines += wire(f"w{i}", names[i], names[i + 1], lose if i == 2 else 0)
    cube = ('{ id = 1, kind = "reliable", mpl = 60, window = 256, '
            f'largest = {SDU}, r = 420, a = 1, retry = 14 }}')
    links = [f'{{ on = "w{i}", a = "{names[i]}", b = "{names[i + 1]}" }}' for i in range(5)]
    return lines + dif("d", 1, SDU + PCI + LIFE, 256, 60, cube,
                       [(n, i + 1) for i, n in enumerate(names)], links, flow(1, "n0", "n5"))


def stack_c(ranks):
    lines = ['nodes = ["a", "b"]'] + wire("w", "a", "b")
    for rank in range(1, ranks + 1):
        above = ranks - rank                      # layers above this one
        largest = SDU + above * (PCI + LIFE)      # what the layer above needs
        mpl = 40 * rank                           # each rank charges the promise below
        cube = f'{{ id = 1, kind = "datagram", mpl = {mpl}, window = 64, largest = {largest} }}'
        link = ('{ on = "w", a = "a", b = "b" }' if rank == 1 else
                f'{{ on = "d{rank - 1}", a = "a", b = "b", cube = 1 }}')
        lines += dif(f"d{rank}", rank, largest + PCI + LIFE, 64, mpl, cube,
                     [("a", 1), ("b", 2)], [link],
                     flow(1, "a", "b") if rank == ranks else None)
    return lines


def parent(k, children):
    return (k - 1) // children


def stack_e(n, children):
    """A DIF whose first member alone is enrolled. Its management windows take all items at once."""
    names = [f"n{k}" for k in range(n)]
    lines = ["nodes = [" + ", ".join(f'"{name}"' for name in names) + "]"]
    for k in range(1, n):
        lines += wire(f"w{k}", names[parent(k, children)], names[k])
    return lines + [
        "[[dif]]",
        'name = "d"',
        "rank = 1",
        "pdu = 400",
        f"widths = {WIDTHS}",
        "queue = 256",
        'policy = "strict"',
        "wait = 2000",
        "manage = { mpl = 40, r = 400, a = 2, retry = 40, window = 256 }",
        f'cube = [ {{ id = 1, kind = "datagram", mpl = 40, window = 16, largest = {SDU} }} ]',
        "member = [ " + ", ".join(f'{{ node = "{name}", addr = {k + 1} }}' for k, name in enumerate(names)) + " ]",
    ]


def schedule_batches(n, batch=64, ticks=1):
    """A batch is sent, crosses each wire of its way in one tick, and is read."""
    done = 0
    while done < n:
        k = min(batch, n - done)
        for _ in range(k):
            yield f"send p z{SDU}"
        yield f"tick {ticks}"
        yield "read q"
        done += k


def schedule_paced(n, per_send=2, per_read=16):
    """B: one SDU a tick on average, a read after 16; at the end the losses are made good."""
    done = 0
    while done < n:
        k = min(per_send, n - done)
        for _ in range(k):
            yield f"send p z{SDU}"
        yield f"tick {per_send}"
        done += k
        if done % per_read == 0:
            yield "read q"
    yield "tick 300"
    yield "read q"


def schedule_allocations(n):
    """M: the ask crosses the wire in one tick, and so does the answer."""
    yield "register d b t"
    yield "tick 2"
    for k in range(n):
        yield f"alloc p{k} d a s t"
        yield "tick 1"
        yield f"accept q{k} d b t"
        yield "tick 1"
        yield f"state p{k}"


def schedule_enrolments(n, children):
    """E: an enrolment takes four ticks; what the others are told of it goes on while the next ones enrol."""
    for k in range(1, n):
        at = f"n{parent(k, children)}"
        yield f"publish d {at} w{k}"
        yield f"enrol d n{k} w{k} {at}"
        yield "tick 6"
    yield f"tick {n}"
    yield f"member d n{n - 1}"
    yield "rib d n0 /member"
    yield "rib d n0 /link"
    yield f"rib d n{n - 1}"


def main():
    words = sys.argv[1:]
    if len(words) < 2 or words[0] not in ("W", "A", "B", "C", "E", "I", "M", "R"):
        sys.exit(__doc__)
    what, n = words[0], int(words[1])
    if what == "W":
        stack = stack_w()
        ask = ["register w b t", "alloc p w a s t", "accept q w b t"]
        lines = ask + list(schedule_batches(n))
    elif what == "A":
        stack, lines = stack_a(), schedule_batches(n)
    elif what == "B":
        stack, lines = stack_b(int(words[2]) if len(words) > 2 else 50), schedule_paced(n)
    elif what == "I":
        stack, lines = stack_a(int(words[2])), schedule_batches(n)
    elif what == "R":
        stack, lines = stack_r(int(words[2]), int(words[3])), schedule_batches(n, ticks=int(words[2]) // 2)
    elif what == "M":
        stack, lines = stack_m(), schedule_allocations(n)
    elif what == "E":
        children = int(words[2]) if len(words) > 2 else 1
        stack, lines = stack_e(n, children), schedule_enrolments(n, children)
    else:
        stack, lines = stack_c(int(words[2]) if len(words) > 2 else 4), schedule_batches(n)
    text = "\n".join(stack) + "\n%%\n" + "\n".join(lines) + "\n"
    if len(text) > MAX_INPUT:
        print(f"make_input: {len(text)} bytes are more than rlemu reads", file=sys.stderr)
    sys.stdout.write(text)


main()
