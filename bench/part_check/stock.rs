//! The check of all parts of a split file in stock Rust: stock FILE TIMES, or stock FILE TIMES each, which walks from
//! each entry anew. It prints what the program in Rattle prints.

use std::env;
use std::fs;
use std::process::exit;

struct Label {
    rows: [u64; 63],
    trust: u64,
}

impl Label {
    /// Whether what this label forbids, the other forbids.
    fn may_be_seen(&self, host: &Label) -> bool {
        self.rows.iter().zip(&host.rows).all(|(mine, its)| !mine & *its == 0)
    }
}

struct Host {
    label: Label,
}

struct Field {
    label: usize,
    host: usize,
}

#[derive(Clone, Copy)]
struct Entry {
    host: usize,
    at: usize,
    need: u64,
}

#[allow(dead_code)]
enum Node {
    Number(i64),
    Var(u32),
    Temp(u32),
    Sign(u8),
}

type Expr = Vec<Node>;

#[allow(dead_code)]
enum Op {
    Read(usize, Expr),
    Let(usize, Expr),
    Put(usize, Expr, Expr),
    Send(usize, usize),
    Frame(u32),
    Arg(usize, Expr),
    Pass(usize, usize),
    Push(usize),
    Ask(usize, usize),
    Go(usize, usize),
    Call(usize, usize),
    Ret(usize, Expr),
    Back,
    Branch(Expr, usize),
    GoWith(usize, usize, Vec<usize>),
    CallWith(usize, usize, Vec<usize>),
}

#[allow(dead_code)]
struct Instr {
    label: usize,
    statement: u32,
    op: Op,
}

struct Code {
    hosts: Vec<Host>,
    labels: Vec<Label>,
    fields: Vec<Field>,
    variables: Vec<usize>,
    entries: Vec<Entry>,
    parts: Vec<Vec<Instr>>,
}

enum Outcome {
    Sound,
    Weak(usize, usize),
    Reveals(usize),
}

// ---- reading

/// Reads a file from the front; `None` where it is no split file.
struct Reader<'a> {
    rest: &'a [u8],
}

impl<'a> Reader<'a> {
    fn bytes(&mut self, count: usize) -> Option<&'a [u8]> {
        let (front, rest) = self.rest.split_at_checked(count)?;
        self.rest = rest;
        Some(front)
    }

    fn byte(&mut self) -> Option<usize> {
        Some(usize::from(self.bytes(1)?[0]))
    }

    fn number(&mut self) -> Option<usize> {
        Some(u32::from_be_bytes(self.bytes(4)?.try_into().ok()?) as usize)
    }

    fn word(&mut self) -> Option<u64> {
        Some(u64::from_be_bytes(self.bytes(8)?.try_into().ok()?))
    }

    fn below(&mut self, count: usize) -> Option<usize> {
        self.number().filter(|it| *it < count)
    }

    fn host(&mut self, count: usize) -> Option<usize> {
        self.byte().filter(|it| *it < count)
    }

    fn label(&mut self) -> Option<Label> {
        let mut rows = [0; 63];
        for row in &mut rows {
            *row = self.word()?;
        }
        Some(Label { rows, trust: self.word()? })
    }

    fn list<T>(&mut self, mut item: impl FnMut(&mut Self) -> Option<T>) -> Option<Vec<T>> {
        let count = self.number()?;
        let mut list = Vec::new();
        for _ in 0..count {
            list.push(item(self)?);
        }
        Some(list)
    }

    fn text(&mut self) -> Option<&'a [u8]> {
        let count = self.number()?;
        self.bytes(count)
    }

    fn node(&mut self, code: &Code) -> Option<Node> {
        match self.byte()? {
            1 => Some(Node::Number(self.word()? as i64)),
            2 => Some(Node::Var(self.below(code.variables.len())? as u32)),
            3 => Some(Node::Temp(self.number()? as u32)),
            sign @ 4..=18 => Some(Node::Sign(sign as u8)),
            _ => None,
        }
    }

    fn expr(&mut self, code: &Code) -> Option<Expr> {
        self.list(|it| it.node(code))
    }

    fn riders(&mut self, code: &Code) -> Option<Vec<usize>> {
        let riders = self.list(|it| it.below(code.variables.len()))?;
        (1..=8).contains(&riders.len()).then_some(riders)
    }

    fn entry_on(&mut self, code: &Code) -> Option<(usize, usize)> {
        let entry = self.below(code.entries.len())?;
        let on = self.host(code.hosts.len())?;
        (entry > 0 && code.entries[entry].host == on).then_some((entry, on))
    }

    fn op(&mut self, code: &Code) -> Option<Op> {
        let (hosts, fields, variables) = (code.hosts.len(), code.fields.len(), code.variables.len());
        Some(match self.byte()? {
            1 => Op::Read(self.below(fields)?, self.expr(code)?),
            2 => Op::Let(self.below(variables)?, self.expr(code)?),
            3 => Op::Put(self.below(fields)?, self.expr(code)?, self.expr(code)?),
            4 => Op::Send(self.below(variables)?, self.host(hosts)?),
            5 => Op::Frame(self.number()? as u32),
            6 => Op::Arg(self.below(variables)?, self.expr(code)?),
            7 => Op::Pass(self.below(variables)?, self.host(hosts)?),
            8 => Op::Push(self.below(code.entries.len())?),
            9 => self.entry_on(code).map(|(entry, on)| Op::Ask(entry, on))?,
            10 => self.entry_on(code).map(|(entry, on)| Op::Go(entry, on))?,
            11 => self.entry_on(code).map(|(entry, on)| Op::Call(entry, on))?,
            12 => Op::Ret(self.below(variables)?, self.expr(code)?),
            13 => Op::Back,
            14 => Op::Branch(self.expr(code)?, self.number()?),
            15 => {
                let (entry, on) = self.entry_on(code)?;
                Op::GoWith(entry, on, self.riders(code)?)
            }
            16 => {
                let (entry, on) = self.entry_on(code)?;
                Op::CallWith(entry, on, self.riders(code)?)
            }
            _ => return None,
        })
    }

    fn instruction(&mut self, code: &Code) -> Option<Instr> {
        Some(Instr {
            label: self.below(code.labels.len())?,
            statement: self.number()? as u32,
            op: self.op(code)?,
        })
    }

    fn entry(&mut self, code: &Code) -> Option<Entry> {
        let host = self.host(code.hosts.len())?;
        let at = self.number()?;
        self.below(code.labels.len())?;
        Some(Entry { host, at, need: self.word()? })
    }
}

fn read(bytes: &[u8]) -> Option<Code> {
    let mut it = Reader { rest: bytes };
    if it.bytes(8)? != b"JIFSPLIT" {
        return None;
    }
    it.bytes(2)?;
    let hosts = it.list(|it| it.text().and(it.label()).map(|label| Host { label }))?;
    let mut code = Code {
        hosts,
        labels: it.list(Reader::label)?,
        fields: Vec::new(),
        variables: Vec::new(),
        entries: Vec::new(),
        parts: Vec::new(),
    };
    let (hosts, labels) = (code.hosts.len(), code.labels.len());
    code.fields = it.list(|it| {
        it.text()?;
        let label = it.below(labels)?;
        it.bytes(13)?;
        Some(Field { label, host: it.host(hosts)? })
    })?;
    code.variables = it.list(|it| it.text().and(it.below(labels)))?;
    code.entries = it.list(|it| it.entry(&code))?;
    it.list(|it| it.host(hosts))?;
    it.host(hosts)?;
    it.below(code.entries.len())?;
    for _ in 0..hosts {
        let part = it.list(|it| it.instruction(&code))?;
        code.parts.push(part);
    }
    it.rest.is_empty().then_some(code)
}

// ---- the check

fn is_within(inner: u64, outer: u64) -> bool {
    inner & !outer == 0
}

impl Code {
    fn trust(&self, variable: usize) -> u64 {
        self.labels[self.variables[variable]].trust
    }

    fn names_within(&self, need: u64, op: &Op) -> bool {
        let entry = |entry: &usize| is_within(self.entries[*entry].need, need);
        let variable = |variable: &usize| is_within(self.trust(*variable), need);
        match op {
            Op::Push(there) | Op::Ask(there, _) | Op::Go(there, _) | Op::Call(there, _) => entry(there),
            Op::GoWith(there, _, riders) | Op::CallWith(there, _, riders) => entry(there) && riders.iter().all(variable),
            Op::Let(x, _) | Op::Arg(x, _) | Op::Ret(x, _) | Op::Send(x, _) | Op::Pass(x, _) => variable(x),
            Op::Put(field, _, _) => is_within(self.labels[self.fields[*field].label].trust, need),
            Op::Read(_, _) | Op::Frame(_) | Op::Back | Op::Branch(_, _) => true,
        }
    }

    fn sees(&self, host: usize, label: usize) -> bool {
        self.labels[label].may_be_seen(&self.hosts[host].label)
    }

    fn shows_well(&self, me: usize, one: &Instr) -> bool {
        let tells = |host: usize| self.sees(host, one.label);
        let shows = |host: usize, x: &usize| self.sees(host, self.variables[*x]);
        match &one.op {
            Op::Read(field, _) => self.fields[*field].host == me || tells(self.fields[*field].host),
            Op::Put(field, _, _) => {
                let there = &self.fields[*field];
                there.host == me || tells(there.host) && self.sees(there.host, there.label)
            }
            Op::Send(x, to) | Op::Pass(x, to) => tells(*to) && shows(*to, x),
            Op::Ask(_, on) | Op::Go(_, on) => tells(*on),
            Op::Call(_, on) => *on == me || tells(*on),
            Op::GoWith(_, on, riders) | Op::CallWith(_, on, riders) => {
                tells(*on) && riders.iter().all(|x| shows(*on, x))
            }
            _ => true,
        }
    }

    fn verify(&self, me: usize, each: bool) -> Outcome {
        let part = &self.parts[me];
        let mut bound = vec![u64::MAX; part.len()];
        for (number, entry) in self.entries.iter().enumerate().skip(1) {
            if entry.host != me {
                continue;
            }
            if each {
                bound.fill(u64::MAX);
            }
            if let Some(place) = self.weak_at(part, *entry, &mut bound) {
                return Outcome::Weak(number, place);
            }
        }
        match part.iter().position(|one| !self.shows_well(me, one)) {
            Some(place) => Outcome::Reveals(place),
            None => Outcome::Sound,
        }
    }

    fn weak_at(&self, part: &[Instr], entry: Entry, bound: &mut [u64]) -> Option<usize> {
        let mut work = vec![entry.at];
        let mut least = None;
        while let Some(place) = work.pop() {
            if place >= bound.len() || is_within(bound[place], entry.need) {
                continue;
            }
            bound[place] &= entry.need;
            let op = &part[place].op;
            if !self.names_within(entry.need, op) && least.is_none_or(|it| place < it) {
                least = Some(place);
            }
            match op {
                Op::Go(_, _) | Op::Call(_, _) | Op::GoWith(_, _, _) | Op::CallWith(_, _, _) | Op::Back => {}
                Op::Branch(_, target) => work.extend([*target, place + 1]),
                _ => work.push(place + 1),
            }
        }
        least
    }
}

fn main() {
    let words: Vec<String> = env::args().collect();
    let bytes = fs::read(&words[1]).unwrap_or_default();
    let times: u64 = words[2].parse().unwrap_or(1);
    let each = words.get(3).is_some();
    let Some(code) = read(&bytes) else { exit(1) };
    for me in 0..code.hosts.len() {
        let mut outcome = Outcome::Sound;
        for _ in 0..times {
            outcome = code.verify(me, each);
        }
        match outcome {
            Outcome::Sound => println!("{me} sound"),
            Outcome::Weak(entry, place) => println!("{me} weak entry {entry} at {place}"),
            Outcome::Reveals(place) => println!("{me} reveals at {place}"),
        }
    }
}
