//! A plain, unverified emulator of the scenarios of this bench in the manner of rlemu: a yardstick.
//!
//!     baseline A|B|C [LOSE|RANKS] < input > notes
//!
//! The input is that of `make_input.py`. The stack part is skipped, its topology is built in;
//! the schedule part is read, and the notes have the form that rlemu's have.
//!
//! It has: rounds after each line and tick, one queue per link, PDUs encoded and decoded at
//! each hop with 4 bytes of remaining lifetime, least-hop relaying, datagram duplicates,
//! reliable windows, acknowledgements and retransmission, a wire's storm drawn by PCG32, and a
//! journal of sent and got entries at every rank that keeps every byte.
//!
//! It leaves out: management, absence of state and giving up, SDUs of several pieces, policies,
//! want of memory, and every check that these scenarios can't reach.

use std::collections::{BTreeMap, VecDeque};
use std::io::{BufWriter, Read, Write};

type Tick = u32;

// ---- journals ----

struct Entry {
    tick: Tick,
    #[allow(dead_code)] // kept as rlemu keeps it
    cep: u32,
    seq: u64,
    bytes: Vec<u8>,
}

#[derive(Default)]
struct End {
    sent: Vec<Entry>,
    got: Vec<Entry>,
    taken: usize,
}

// ---- storms ----

struct Pcg(u64, u64);

impl Pcg {
    fn seed(mut state: u64) -> Pcg {
        let mut word = || {
            state = state.wrapping_mul(6364136223846793005).wrapping_add(11634580027462260723);
            let x = (((state >> 18) ^ state) >> 27) as u32;
            u64::from(x.rotate_right((state >> 59) as u32))
        };
        let start = word() | word() << 32;
        let step = (word() | word() << 32) | 1;
        let mut pcg = Pcg(start.wrapping_add(step), step);
        pcg.next_word();
        pcg
    }

    fn next_word(&mut self) -> u32 {
        let s = self.0;
        self.0 = s.wrapping_mul(6364136223846793005).wrapping_add(self.1);
        ((((s >> 18) ^ s) >> 27) as u32).rotate_right((s >> 59) as u32)
    }
}

// ---- rank 0 ----

struct Wire {
    frames: u64,
    in_flight: VecDeque<(Tick, usize, u64, Vec<u8>)>, // due, end that gets it, number, bytes
    storm: Option<(Pcg, u32)>,
}

const DELAY: Tick = 1;
const WIRE_LIFE: u32 = 4;

/// Wire `w` has the ends `2w` and `2w + 1`.
struct Wires {
    wires: Vec<Wire>,
    ends: Vec<End>,
}

impl Wires {
    fn send(&mut self, now: Tick, end: usize, frame: &[u8]) {
        let w = &mut self.wires[end / 2];
        let seq = w.frames;
        w.frames += 1;
        self.ends[end].sent.push(Entry { tick: now, cep: 0, seq, bytes: frame.to_vec() });
        if let Some((pcg, lose)) = &mut w.storm {
            if pcg.next_word() % 1000 < *lose {
                return;
            }
            pcg.next_word(); // the spread, which is 0
            pcg.next_word(); // the repeat, which is 0
        }
        w.in_flight.push_back((now + DELAY, end ^ 1, seq, frame.to_vec()));
    }

    fn tick(&mut self, now: Tick) {
        for w in &mut self.wires {
            while w.in_flight.front().is_some_and(|f| f.0 <= now) {
                let (_, end, seq, bytes) = w.in_flight.pop_front().unwrap();
                self.ends[end].got.push(Entry { tick: now, cep: 0, seq, bytes });
            }
        }
    }
}

// ---- PDUs: addr 1, cep 1, len 2, seq 4 ----

struct Pdu<B> {
    ack: bool,
    drf: bool,
    qos: u8,
    dst: u8,
    src: u8,
    dcep: u8,
    scep: u8,
    seq: u32,
    right: u32,
    body: B,
}

impl Pdu<&[u8]> {
    fn owned(&self) -> Pdu<Vec<u8>> {
        let Pdu { ack, drf, qos, dst, src, dcep, scep, seq, right, body } = *self;
        Pdu { ack, drf, qos, dst, src, dcep, scep, seq, right, body: body.to_vec() }
    }
}

fn encode(life: u32, p: &Pdu<Vec<u8>>) -> Vec<u8> {
    let len = 14 + if p.ack { 4 } else { p.body.len() };
    let mut out = Vec::with_capacity(4 + len);
    out.extend_from_slice(&life.to_be_bytes());
    let flags = if p.ack { 0 } else { u8::from(p.drf) | 6 };
    out.extend_from_slice(&[1, flags, 1 + u8::from(p.ack), p.qos, p.dst, p.src, p.dcep, p.scep]);
    out.extend_from_slice(&(len as u16).to_be_bytes());
    out.extend_from_slice(&p.seq.to_be_bytes());
    if p.ack {
        out.extend_from_slice(&p.right.to_be_bytes());
    } else {
        out.extend_from_slice(&p.body);
    }
    out
}

fn decode(bytes: &[u8]) -> Option<(u32, Pdu<&[u8]>)> {
    let word = |at: usize| Some(u32::from_be_bytes(bytes.get(at..at + 4)?.try_into().ok()?));
    let life = word(0)?;
    let h = bytes.get(4..14)?;
    let ack = h[2] == 2;
    let len = usize::from(u16::from_be_bytes([h[8], h[9]]));
    let lawful = h[0] == 1 && if ack { h[1] == 0 && len == 18 } else { h[2] == 1 && h[1] < 8 };
    if !lawful || len != bytes.len() - 4 {
        return None;
    }
    let seq = word(14)?;
    let (right, body) = if ack { (word(18)?, &bytes[22..]) } else { (0, &bytes[18..]) };
    let drf = h[1] & 1 == 1;
    Some((life, Pdu { ack, drf, qos: h[3], dst: h[4], src: h[5], dcep: h[6], scep: h[7], seq, right, body }))
}

// ---- connections ----

#[derive(Clone, Copy)]
struct Cube {
    reliable: bool,
    mpl: u32,
    r: u32,
    a: u32,
    retry: u32,
    window: u32,
}

struct Unacked {
    first: Tick,
    last: Tick,
    drf: bool,
    seq: u32,
    body: Vec<u8>,
}

struct Conn {
    node: usize,
    far: u8,
    cep: u8, // both ends use the same number here
    // sender
    next_seq: u32,
    right: u32,
    unacked: VecDeque<Unacked>,
    // receiver
    present: bool,
    next: u32,
    seen: Vec<u64>, // 4096 bits, datagram
    held: BTreeMap<u32, Vec<u8>>,
    ack_at: Option<Tick>,
}

impl Conn {
    /// What an arriving piece gives to the journal, in order.
    fn on_data(
        &mut self,
        cube: &Cube,
        now: Tick,
        p: &Pdu<&[u8]>,
        unpassed: usize,
        got: &mut Vec<Entry>,
    ) -> bool {
        let mut give = |seq: u32, bytes: Vec<u8>| {
            got.push(Entry { tick: now, cep: u32::from(p.scep), seq: u64::from(seq), bytes });
        };
        let full = unpassed >= cube.window as usize;
        if !cube.reliable {
            let bit = |s: u32| ((s as usize % 4096) / 64, 1u64 << (s % 64));
            if self.present && p.seq < self.next {
                let (word, mask) = bit(p.seq);
                if p.seq + 4097 <= self.next || self.seen[word] & mask != 0 {
                    return false;
                }
            }
            if full {
                return false;
            }
            if !self.present {
                self.present = true;
                self.seen.iter_mut().for_each(|w| *w = 0);
                self.next = p.seq;
            }
            while self.next <= p.seq {
                let (word, mask) = bit(self.next);
                self.seen[word] &= !mask;
                self.next += 1;
            }
            let (word, mask) = bit(p.seq);
            self.seen[word] |= mask;
            give(p.seq, p.body.to_vec());
            return true;
        }
        if !self.present && !p.drf {
            return false;
        }
        if full && (!self.present || p.seq >= self.next) {
            return false;
        }
        if !self.present {
            self.present = true;
            self.next = p.seq;
        }
        self.ack_at.get_or_insert(now + cube.a);
        if p.seq < self.next || self.held.contains_key(&p.seq) {
            return false;
        }
        if p.seq > self.next {
            self.held.insert(p.seq, p.body.to_vec());
            return true;
        }
        give(p.seq, p.body.to_vec());
        self.next += 1;
        while let Some(bytes) = self.held.remove(&self.next) {
            give(self.next, bytes);
            self.next += 1;
        }
        true
    }

    fn on_control(&mut self, ack: u32, right: u32) {
        while self.unacked.front().is_some_and(|u| u.seq <= ack) {
            self.unacked.pop_front();
        }
        self.right = self.right.max(right);
    }
}

// ---- one DIF on each rank above 0 ----

struct Queued {
    left: u32,
    since: Tick,
    pdu: Pdu<Vec<u8>>,
}

struct Link {
    lower: usize, // end of the rank below
    queue: VecDeque<Queued>,
}

#[derive(Default)]
struct Member {
    addr: u8,
    links: Vec<Link>,
    next_hop: Vec<usize>, // by address
}

struct Dif {
    cube: Cube,
    queue: usize,
    members: Vec<Member>,
    conns: Vec<Conn>, // one for each end
    ends: Vec<End>,
    off: Vec<(u8, u8, u32, &'static str)>,
}

impl Dif {
    fn enqueue(&mut self, node: usize, left: u32, since: Tick, pdu: Pdu<Vec<u8>>) {
        let link = self.members[node].next_hop[usize::from(pdu.dst)];
        let queue = &mut self.members[node].links[link].queue;
        if queue.len() < self.queue {
            queue.push_back(Queued { left, since, pdu });
        } else {
            self.off.push((pdu.src, pdu.scep, pdu.seq, "QueueFull"));
        }
    }

    fn piece(&self, end: usize, drf: bool, seq: u32, body: Vec<u8>) -> Pdu<Vec<u8>> {
        let c = &self.conns[end];
        let src = self.members[c.node].addr;
        Pdu { ack: false, drf, qos: 1, dst: c.far, src, dcep: c.cep, scep: c.cep, seq, right: 0, body }
    }

    fn send(&mut self, now: Tick, end: usize, sdu: &[u8]) -> Result<(u32, u64), String> {
        let c = &mut self.conns[end];
        let seq = c.next_seq;
        if self.cube.reliable && seq > c.right {
            return Err("no WindowShut 1 0".to_string());
        }
        let m = &self.members[c.node];
        if m.links[m.next_hop[usize::from(c.far)]].queue.len() >= self.queue {
            return Err("no QueueFull 1 0".to_string());
        }
        c.next_seq += 1;
        let mut drf = seq == 0;
        if self.cube.reliable {
            drf = c.unacked.is_empty();
            c.unacked.push_back(Unacked { first: now, last: now, drf, seq, body: sdu.to_vec() });
        }
        let (node, cep) = (c.node, u32::from(c.cep));
        let pdu = self.piece(end, drf, seq, sdu.to_vec());
        self.enqueue(node, self.cube.mpl, now, pdu);
        self.ends[end].sent.push(Entry { tick: now, cep, seq: u64::from(seq), bytes: sdu.to_vec() });
        Ok((cep, u64::from(seq)))
    }

    /// One SDU of the lower flow, handled whole; false where there is none.
    fn in_step(&mut self, now: Tick, below: &mut [End], node: usize, link: usize) -> bool {
        let lower = &mut below[self.members[node].links[link].lower];
        let Some(sdu) = lower.got.get(lower.taken) else { return false };
        lower.taken += 1;
        let (left, p) = decode(&sdu.bytes).expect("what the partner sent decodes");
        if left < now - sdu.tick {
            self.off.push((p.src, p.scep, p.seq, "Expired"));
            return true;
        }
        if p.dst != self.members[node].addr {
            let pdu = p.owned();
            self.enqueue(node, left, sdu.tick, pdu);
            return true;
        }
        let Some(at) = self.conns.iter().position(|c| c.node == node && c.cep == p.dcep && c.far == p.src)
        else {
            self.off.push((p.src, p.scep, p.seq, "NoConnection"));
            return true;
        };
        let (c, end) = (&mut self.conns[at], &mut self.ends[at]);
        if p.ack {
            c.on_control(p.seq, p.right);
        } else if !c.on_data(&self.cube, now, &p, end.got.len() - end.taken, &mut end.got) {
            self.off.push((p.src, p.scep, p.seq, "Duplicate"));
        }
        true
    }

    /// The acknowledgements and retransmissions that are due at one member.
    fn clock(&mut self, now: Tick, node: usize) {
        if !self.cube.reliable {
            return;
        }
        for at in 0..self.conns.len() {
            let c = &mut self.conns[at];
            if c.node != node {
                continue;
            }
            if c.ack_at.is_some_and(|t| t <= now) {
                c.ack_at = None;
                let end = &self.ends[at];
                let first_unpassed = end.got.get(end.taken).map_or(u64::from(c.next), |e| e.seq);
                let right = first_unpassed as u32 + self.cube.window - 1;
                let (seq, dst, cep) = (c.next - 1, c.far, c.cep);
                let src = self.members[node].addr;
                let pdu = Pdu {
                    ack: true,
                    drf: false,
                    qos: 1,
                    dst,
                    src,
                    dcep: cep,
                    scep: cep,
                    seq,
                    right,
                    body: vec![],
                };
                self.enqueue(node, self.cube.mpl, now, pdu);
            }
            for i in 0..self.conns[at].unacked.len() {
                let u = &mut self.conns[at].unacked[i];
                if now >= u.last + self.cube.retry && now <= u.first + self.cube.r {
                    u.last = now;
                    let (drf, seq, body) = (u.drf, u.seq, u.body.clone());
                    let pdu = self.piece(at, drf, seq, body);
                    self.enqueue(node, self.cube.mpl, now, pdu);
                }
            }
        }
    }

    /// The bytes of the next PDU of a link, if any; a PDU whose lifetime ends is written off.
    fn out_step(&mut self, now: Tick, promise: u32, node: usize, link: usize) -> Option<(usize, Vec<u8>)> {
        let link = &mut self.members[node].links[link];
        while let Some(q) = link.queue.pop_front() {
            let charge = now - q.since + promise;
            if q.left >= charge {
                return Some((link.lower, encode(q.left - charge, &q.pdu)));
            }
            self.off.push((q.pdu.src, q.pdu.scep, q.pdu.seq, "Expired"));
        }
        None
    }

    /// The oldest SDU not passed at an end; passing it makes an acknowledgement due.
    fn pass(&mut self, now: Tick, end: usize) {
        self.ends[end].taken += 1;
        if self.cube.reliable {
            self.conns[end].ack_at.get_or_insert(now + self.cube.a);
        }
    }
}

// ---- the tower ----

struct Tower {
    now: Tick,
    wires: Wires,
    difs: Vec<Dif>,
}

impl Tower {
    fn build(what: &str, arg: u32) -> Tower {
        let nodes: usize = if what == "B" { 6 } else { 2 };
        let wires = (0..nodes - 1)
            .map(|i| Wire {
                frames: 0,
                in_flight: VecDeque::new(),
                storm: (what == "B" && i == 2 && arg > 0).then(|| (Pcg::seed(1), arg)),
            })
            .collect();
        let wires = Wires { wires, ends: (0..2 * (nodes - 1)).map(|_| End::default()).collect() };
        let ranks = if what == "C" { arg } else { 1 };
        let difs = (1..=ranks)
            .map(|rank| {
                let (cube, queue) = if what == "B" {
                    (Cube { reliable: true, mpl: 60, r: 420, a: 1, retry: 14, window: 256 }, 256)
                } else {
                    (Cube { reliable: false, mpl: 40 * rank, r: 0, a: 0, retry: 0, window: 64 }, 64)
                };
                let mut members: Vec<Member> = (0..nodes).map(|_| Member::default()).collect();
                for (i, m) in members.iter_mut().enumerate() {
                    m.addr = i as u8 + 1;
                    // links in number order: to the left, then to the right
                    if i > 0 {
                        m.links.push(Link { lower: 2 * i - 1, queue: VecDeque::new() });
                    }
                    if i + 1 < nodes {
                        m.links.push(Link { lower: 2 * i, queue: VecDeque::new() });
                    }
                    let last = m.links.len() - 1;
                    m.next_hop = (0..=nodes).map(|addr| if addr <= i { 0 } else { last }).collect();
                }
                let conns = [(0, nodes as u8), (nodes - 1, 1)].map(|(node, far)| Conn {
                    node,
                    far,
                    cep: 1,
                    next_seq: 0,
                    right: cube.window - 1,
                    unacked: VecDeque::new(),
                    present: false,
                    next: 0,
                    seen: vec![0; 64],
                    held: BTreeMap::new(),
                    ack_at: None,
                });
                let ends = vec![End::default(), End::default()];
                Dif { cube, queue, members, conns: conns.into(), ends, off: Vec::new() }
            })
            .collect();
        Tower { now: 0, wires, difs }
    }

    fn round(&mut self) {
        let now = self.now;
        for r in 0..self.difs.len() {
            let (lower, upper) = self.difs.split_at_mut(r);
            let dif = &mut upper[0];
            for node in 0..dif.members.len() {
                for link in 0..dif.members[node].links.len() {
                    match lower.last_mut() {
                        None => while dif.in_step(now, &mut self.wires.ends, node, link) {},
                        Some(l) => while dif.in_step(now, &mut l.ends, node, link) {},
                    }
                }
            }
        }
        for dif in &mut self.difs {
            for node in 0..dif.members.len() {
                dif.clock(now, node);
            }
        }
        for r in (0..self.difs.len()).rev() {
            let (lower, upper) = self.difs.split_at_mut(r);
            let dif = &mut upper[0];
            let promise = lower.last().map_or(WIRE_LIFE, |l| l.cube.mpl);
            for node in 0..dif.members.len() {
                for link in 0..dif.members[node].links.len() {
                    while let Some((port, sdu)) = dif.out_step(now, promise, node, link) {
                        match lower.last_mut() {
                            None => self.wires.send(now, port, &sdu),
                            Some(l) => {
                                l.send(now, port, &sdu).expect("the lower queue has room");
                            }
                        }
                    }
                }
            }
        }
    }
}

// ---- schedule and notes ----

fn print_bytes(out: &mut impl Write, bytes: &[u8]) -> std::io::Result<()> {
    if !bytes.is_empty() && bytes.iter().all(|b| (b'!'..=b'~').contains(b)) {
        out.write_all(b"'")?;
        return out.write_all(bytes);
    }
    out.write_all(b"x")?;
    let mut text = [0u8; 512];
    for chunk in bytes.chunks(256) {
        for (i, b) in chunk.iter().enumerate() {
            text[2 * i] = b"0123456789abcdef"[usize::from(b >> 4)];
            text[2 * i + 1] = b"0123456789abcdef"[usize::from(b & 15)];
        }
        out.write_all(&text[..2 * chunk.len()])?;
    }
    Ok(())
}

fn main() -> std::io::Result<()> {
    let mut words = std::env::args().skip(1);
    let what = words.next().expect("a scenario");
    let default = if what == "B" { 50 } else { 4 };
    let arg = words.next().map_or(default, |w| w.parse().expect("a number"));
    let mut tower = Tower::build(&what, arg);
    let top = tower.difs.len() - 1;
    let mut input = String::new();
    std::io::stdin().read_to_string(&mut input)?;
    let mut out = BufWriter::new(std::io::stdout().lock());
    let (_, schedule) = input.split_once("\n%%\n").expect("a schedule");
    for (i, line) in schedule.lines().enumerate() {
        let mut fields = line.split(' ').filter(|f| !f.is_empty());
        let n = i + 1;
        match (fields.next(), fields.next(), fields.next()) {
            (Some("send"), Some(label), Some(bytes)) => {
                let sdu = match bytes.split_at(1) {
                    ("z", len) => vec![0; len.parse().expect("a length")],
                    ("'", text) => text.as_bytes().to_vec(),
                    _ => panic!("line {n}"),
                };
                let end = usize::from(label == "q");
                match tower.difs[top].send(tower.now, end, &sdu) {
                    Ok((cep, seq)) => writeln!(out, "{n} {} sent {cep}.{seq}", tower.now)?,
                    Err(text) => writeln!(out, "{n} {} {text}", tower.now)?,
                }
                tower.round();
            }
            (Some("tick"), Some(count), None) => {
                for _ in 0..count.parse::<u32>().expect("a count") {
                    tower.now += 1;
                    tower.wires.tick(tower.now);
                    tower.round();
                }
                writeln!(out, "{n} {} ok", tower.now)?;
            }
            (Some("read"), Some(label), None) => {
                let end = usize::from(label == "q");
                let mut any = false;
                let now = tower.now;
                let dif = &mut tower.difs[top];
                while let Some(e) = dif.ends[end].got.get(dif.ends[end].taken) {
                    any = true;
                    write!(out, "{n} {now} got {} ", e.tick)?;
                    print_bytes(&mut out, &e.bytes)?;
                    out.write_all(b"\n")?;
                    dif.pass(now, end);
                }
                if !any {
                    writeln!(out, "{n} {now} none")?;
                }
                tower.round();
            }
            _ => panic!("line {n}: {line}"),
        }
    }
    writeln!(out, "end {}", tower.now)?;
    out.flush()?;
    // What rlemu's journals and ledgers hold at the end, as a check on the run.
    let ends = &tower.difs[top].ends;
    let frames: usize = tower.wires.ends.iter().map(|e| e.sent.len()).sum();
    let off: usize = tower.difs.iter().map(|d| d.off.len()).sum();
    eprintln!("sent {} got {} frames {frames} off {off}", ends[0].sent.len(), ends[1].got.len());
    Ok(())
}
