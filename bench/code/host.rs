//! A host in stock Rust: the whole table of what it does at a turn and with a message.

use crate::code::{
    BinOp, Code, EntryId, FieldId, FrameId, HALT, HOSTS, HostId, Instr, Node, Op, RequestId, SiteId, VarId,
};
use crate::message::{KEY_BYTES, Message, TAG_BYTES, Token, tag};
use std::collections::TryReserveError;
use std::ops::Range;

const MOST_NODES: usize = 256;

const MOST_CALLS: u64 = 1 << 62;

/// The frame of `main`.
const MAIN_FRAME: FrameId = FrameId { site: SiteId(0), count: 0 };

#[derive(Debug)]
pub enum HostError {
    OutOfMemory,
    Stopped,
}

impl From<TryReserveError> for HostError {
    fn from(_: TryReserveError) -> Self {
        HostError::OutOfMemory
    }
}

pub type Sent = Option<(HostId, Message)>;

#[derive(Clone, Copy, PartialEq, Eq)]
enum Awaited {
    Value,
    Ack,
    Token,
}

struct Thread {
    at: u32,
    frame: FrameId,
    new_frame: FrameId,
    temporaries: Vec<i64>,
    held: Option<Token>,
}

impl Thread {
    fn new(at: u32, frame: FrameId, held: Token) -> Self {
        Thread { at, frame, new_frame: frame, temporaries: vec![], held: Some(held) }
    }

    fn step_cleared(&mut self) {
        self.at += 1;
        self.temporaries.clear();
    }

    fn add_temporary(&mut self, value: i64) -> Result<(), HostError> {
        self.temporaries.try_reserve(1)?;
        self.temporaries.push(value);
        Ok(())
    }
}

struct Waiting {
    thread: Thread,
    awaited: Awaited,
    request: RequestId,
    asked: HostId,
}

struct VarCell {
    frame: FrameId,
    var: VarId,
    value: i64,
}

/// The elements of a host's fields, behind one another, and the variables of frames in their order.
struct Stores {
    elements: Vec<i64>,
    /// Where the elements of each field begin, and then where the last end.
    offsets: Vec<usize>,
    cells: Vec<VarCell>,
}

impl Stores {
    fn new(rows: impl Iterator<Item = Vec<i64>>) -> Self {
        let mut stores = Stores { elements: vec![], offsets: vec![0], cells: vec![] };
        for row in rows {
            stores.elements.extend(row);
            stores.offsets.push(stores.elements.len());
        }
        stores
    }

    fn row(&self, field: FieldId) -> Range<usize> {
        match self.offsets.get(field.0 as usize..field.0 as usize + 2) {
            Some(&[start, end]) => start..end,
            _ => 0..0,
        }
    }

    fn element(&self, field: FieldId, index: i64) -> i64 {
        let row = &self.elements[self.row(field)];
        usize::try_from(index).ok().and_then(|index| row.get(index).copied()).unwrap_or(0)
    }

    fn set_element(&mut self, field: FieldId, index: i64, value: i64) {
        let row = self.row(field);
        if let Ok(index) = usize::try_from(index)
            && let Some(element) = self.elements[row].get_mut(index)
        {
            *element = value;
        }
    }

    fn place(&self, frame: FrameId, var: VarId) -> Result<usize, usize> {
        self.cells.binary_search_by_key(&(frame, var), |cell| (cell.frame, cell.var))
    }

    fn variable(&self, frame: FrameId, var: VarId) -> i64 {
        self.place(frame, var).map_or(0, |place| self.cells[place].value)
    }

    fn set_variable(&mut self, frame: FrameId, var: VarId, value: i64) {
        match self.place(frame, var) {
            Ok(place) => self.cells[place].value = value,
            Err(place) => self.cells.insert(place, VarCell { frame, var, value }),
        }
    }
}

struct StackEntry {
    token: Token,
    entry: EntryId,
    frame: FrameId,
    kept: Token,
}

/// The control stack of a host. Who gives it the token of the top entry takes the entry off.
struct Stack {
    key: [u8; KEY_BYTES],
    entries: Vec<StackEntry>,
    serials: Vec<u64>,
}

impl Stack {
    fn push(&mut self, host: HostId, entry: EntryId, frame: FrameId, kept: Token) -> Token {
        let serial = self.serials[entry.0 as usize];
        self.serials[entry.0 as usize] += 1;
        let token = Token { host, frame, entry, serial, tag: tag(&self.key, host, frame, entry, serial) };
        self.entries.push(StackEntry { token, entry, frame, kept });
        token
    }

    fn take(&mut self, token: &Token) -> Option<StackEntry> {
        if self.entries.last()?.token != *token {
            return None;
        }
        self.entries.pop()
    }
}

/// What each host may ask: for each field, variable and entry a word with a bit for each host.
struct Checks {
    gets: Vec<u64>,
    sets: Vec<u64>,
    forwards: Vec<u64>,
    enters: Vec<u64>,
}

impl Checks {
    fn new(code: &Code, me: HostId) -> Self {
        let word_of = |may: &dyn Fn(HostId) -> bool| {
            (0..HOSTS as u8).filter(|&from| may(HostId(from))).fold(0, |word, from| word | 1 << from)
        };
        let fields = || (0..code.fields.len() as u32).map(FieldId);
        let vars = (0..code.vars.len() as u32).map(VarId);
        let entries = (0..code.entries.len() as u32).map(EntryId);
        Checks {
            gets: fields().map(|field| word_of(&|from| may_get(code, me, field, from))).collect(),
            sets: fields().map(|field| word_of(&|from| may_set(code, me, field, from))).collect(),
            forwards: vars.map(|var| word_of(&|from| may_forward(code, var, from))).collect(),
            enters: entries.map(|entry| word_of(&|from| may_enter(code, me, entry, from))).collect(),
        }
    }
}

fn may_get(code: &Code, me: HostId, field: FieldId, from: HostId) -> bool {
    code.field(field).is_some_and(|there| there.host == me && may_see(code, there.label, from))
}

fn may_set(code: &Code, me: HostId, field: FieldId, from: HostId) -> bool {
    code.field(field).is_some_and(|there| there.host == me && may_affect(code, from, there.label))
}

fn may_forward(code: &Code, var: VarId, from: HostId) -> bool {
    code.var(var).is_some_and(|there| may_affect(code, from, there.label))
}

fn may_enter(code: &Code, me: HostId, entry: EntryId, from: HostId) -> bool {
    let (Some(there), Some(host)) = (code.entry(entry), code.host(from)) else {
        return false;
    };
    entry != HALT && there.host == me && host.label.is_trusted_by(there.need) && may_see(code, there.label, from)
}

fn may_see(code: &Code, label: u32, host: HostId) -> bool {
    code.label(label).zip(code.host(host)).is_some_and(|(label, host)| label.conf_flows(&host.label))
}

fn may_affect(code: &Code, host: HostId, label: u32) -> bool {
    code.host(host).zip(code.label(label)).is_some_and(|(host, label)| host.label.integ_flows(label))
}

fn has_bit(words: &[u64], number: u32, from: HostId) -> bool {
    words.get(number as usize).is_some_and(|word| word >> from.0 & 1 == 1)
}

pub struct Host {
    me: HostId,
    stores: Stores,
    stack: Stack,
    running: Option<Thread>,
    waiting: Vec<Waiting>,
    frames: Vec<u64>,
    requests: Vec<u64>,
    ignored: u64,
    halted: bool,
    checks: Checks,
    calls: u64,
    stopped: bool,
    /// The values of the expression that is evaluated.
    values: Vec<i64>,
}

impl Host {
    /// The host before the first event, where each field has one element, which is 1.
    pub fn start(code: &Code, me: HostId, key: [u8; KEY_BYTES]) -> Self {
        let rows = code.fields.iter().map(|field| if field.host == me { vec![1] } else { vec![] });
        let mut host = Host {
            me,
            stores: Stores::new(rows),
            stack: Stack { key, entries: vec![], serials: vec![0; code.entries.len()] },
            running: None,
            waiting: vec![],
            frames: vec![0; code.sites.len() + 1],
            requests: vec![0; code.part(me).len()],
            ignored: 0,
            halted: false,
            checks: Checks::new(code, me),
            calls: 0,
            stopped: false,
            values: Vec::with_capacity(MOST_NODES),
        };
        if me == code.root {
            let last = Token { host: me, frame: MAIN_FRAME, entry: HALT, serial: u64::MAX, tag: [0; TAG_BYTES] };
            let token = host.stack.push(me, HALT, MAIN_FRAME, last);
            host.enter(code, code.main, MAIN_FRAME, token);
        }
        host
    }

    pub fn rests(&self) -> bool {
        self.running.is_none()
    }

    #[allow(dead_code)]
    pub fn halted(&self) -> bool {
        self.halted
    }

    pub fn element(&self, field: FieldId, index: i64) -> i64 {
        self.stores.element(field, index)
    }

    #[allow(dead_code)]
    pub fn set_element(&mut self, field: FieldId, index: i64, value: i64) {
        self.stores.set_element(field, index, value);
    }

    /// How many threads wait.
    #[allow(dead_code)]
    pub fn waiting(&self) -> usize {
        self.waiting.len()
    }

    /// How many entries its control stack has.
    #[allow(dead_code)]
    pub fn depth(&self) -> usize {
        self.stack.entries.len()
    }

    /// How many messages it has ignored.
    #[allow(dead_code)]
    pub fn ignored(&self) -> u64 {
        self.ignored
    }

    /// The instruction that the running thread has come to.
    #[allow(dead_code)]
    pub fn instruction<'a>(&self, code: &'a Code) -> Option<&'a Instr> {
        code.instruction(self.me, self.running.as_ref()?.at)
    }

    pub fn is_stopped(&self) -> bool {
        self.stopped || self.calls >= MOST_CALLS
    }

    /// What the host does at a turn of its running thread, and what it sends.
    pub fn turn(&mut self, code: &Code) -> Result<Sent, HostError> {
        self.begin()?;
        let Some(thread) = self.running.take() else {
            return Ok(None);
        };
        let Some(instruction) = code.instruction(self.me, thread.at) else {
            self.running = Some(thread);
            return Ok(None);
        };
        self.run(code, thread, &instruction.op).inspect_err(|_| self.stopped = true)
    }

    /// What the host does with a message, and what it answers.
    pub fn deliver(&mut self, code: &Code, from: HostId, message: Message) -> Result<Sent, HostError> {
        self.begin()?;
        self.take(code, from, message).inspect_err(|_| self.stopped = true)
    }

    /// Counts a call, and makes room for what it may add.
    fn begin(&mut self) -> Result<(), HostError> {
        if self.is_stopped() {
            return Err(HostError::Stopped);
        }
        if self.reserve().is_err() {
            self.stopped = true;
            return Err(HostError::OutOfMemory);
        }
        self.calls += 1;
        Ok(())
    }

    fn reserve(&mut self) -> Result<(), HostError> {
        self.waiting.try_reserve(1)?;
        self.stores.cells.try_reserve(1)?;
        self.stack.entries.try_reserve(1)?;
        Ok(())
    }

    fn run(&mut self, code: &Code, mut thread: Thread, op: &Op) -> Result<Sent, HostError> {
        let (at, frame, new_frame) = (thread.at, thread.frame, thread.new_frame);
        match op {
            Op::Read(field, index) => return self.read(code, thread, *field, index),
            Op::Put(field, index, value) => return Ok(self.put(code, thread, *field, index, value)),
            Op::Let(var, value) => self.assign(&mut thread, frame, *var, value),
            Op::Arg(var, value) => self.assign(&mut thread, new_frame, *var, value),
            Op::Send(var, to) => return Ok(self.send(thread, frame, *var, *to)),
            Op::Pass(var, to) => return Ok(self.send(thread, new_frame, *var, *to)),
            Op::Frame(site) => self.make_frame(&mut thread, *site),
            Op::Push(entry) => self.push(&mut thread, *entry),
            Op::Ask(entry, on) => return Ok(self.ask(thread, *entry, *on)),
            Op::Go(entry, on) => return Ok(self.go(thread, frame, *entry, *on)),
            Op::Call(entry, on) if *on != self.me => return Ok(self.go(thread, new_frame, *entry, *on)),
            Op::Call(entry, _) => {
                if let Some(there) = code.entry(*entry) {
                    (thread.at, thread.frame) = (there.at, new_frame);
                }
            }
            Op::Ret(var, value) => return Ok(self.return_value(code, thread, *var, value)),
            Op::Back => return Ok(self.give_back(code, thread)),
            Op::Branch(guard, target) => {
                let guard = self.value(&thread, guard);
                thread.step_cleared();
                thread.at = if guard == 0 { *target } else { at + 1 };
            }
        }
        self.running = Some(thread);
        Ok(None)
    }

    fn read(&mut self, code: &Code, mut thread: Thread, field: FieldId, index: &[Node]) -> Result<Sent, HostError> {
        let Some(there) = code.field(field) else {
            self.running = Some(thread);
            return Ok(None);
        };
        let index = self.value(&thread, index);
        if there.host == self.me {
            let added = thread.add_temporary(self.stores.element(field, index));
            thread.at += u32::from(added.is_ok());
            self.running = Some(thread);
            return added.map(|()| None);
        }
        let at = thread.at;
        thread.at += 1;
        let request = self.wait(at, thread, Awaited::Value, there.host);
        Ok(Some((there.host, Message::Get { request, field, index })))
    }

    fn put(&mut self, code: &Code, mut thread: Thread, field: FieldId, index: &[Node], value: &[Node]) -> Sent {
        let Some(there) = code.field(field) else {
            self.running = Some(thread);
            return None;
        };
        let index = self.value(&thread, index);
        let value = self.value(&thread, value);
        let at = thread.at;
        thread.step_cleared();
        if there.host == self.me {
            self.stores.set_element(field, index, value);
            self.running = Some(thread);
            return None;
        }
        let request = self.wait(at, thread, Awaited::Ack, there.host);
        Some((there.host, Message::Set { request, field, index, value }))
    }

    fn assign(&mut self, thread: &mut Thread, frame: FrameId, var: VarId, value: &[Node]) {
        let value = self.value(thread, value);
        thread.step_cleared();
        self.stores.set_variable(frame, var, value);
    }

    fn send(&mut self, mut thread: Thread, frame: FrameId, var: VarId, to: HostId) -> Sent {
        let at = thread.at;
        let value = self.stores.variable(frame, var);
        thread.at += 1;
        let request = self.wait(at, thread, Awaited::Ack, to);
        Some((to, Message::Forward { request, frame, var, value }))
    }

    fn make_frame(&mut self, thread: &mut Thread, site: SiteId) {
        let count = self.frames.get(site.0 as usize).copied().unwrap_or(0);
        count_one(&mut self.frames, site.0);
        thread.at += 1;
        thread.new_frame = FrameId { site, count };
    }

    fn push(&mut self, thread: &mut Thread, entry: EntryId) {
        if let Some(held) = thread.held {
            thread.held = Some(self.stack.push(self.me, entry, thread.frame, held));
            thread.at += 1;
        }
    }

    fn ask(&mut self, mut thread: Thread, entry: EntryId, on: HostId) -> Sent {
        let Some(token) = thread.held.take() else {
            self.running = Some(thread);
            return None;
        };
        let (at, frame) = (thread.at, thread.frame);
        thread.at += 1;
        let request = self.wait(at, thread, Awaited::Token, on);
        Some((on, Message::Sync { request, frame, entry, token }))
    }

    fn go(&mut self, mut thread: Thread, frame: FrameId, entry: EntryId, on: HostId) -> Sent {
        let Some(token) = thread.held.take() else {
            self.running = Some(thread);
            return None;
        };
        Some((on, Message::Rgoto { frame, entry, token }))
    }

    fn return_value(&mut self, code: &Code, mut thread: Thread, var: VarId, value: &[Node]) -> Sent {
        let Some(token) = thread.held else {
            self.running = Some(thread);
            return None;
        };
        let at = thread.at;
        let value = self.value(&thread, value);
        thread.step_cleared();
        if token.host == self.me {
            self.stores.set_variable(token.frame, var, value);
        } else if code.var(var).is_some_and(|there| may_see(code, there.label, token.host)) {
            let request = self.wait(at, thread, Awaited::Ack, token.host);
            return Some((token.host, Message::Forward { request, frame: token.frame, var, value }));
        }
        self.running = Some(thread);
        None
    }

    fn give_back(&mut self, code: &Code, thread: Thread) -> Sent {
        let Some(token) = thread.held else {
            self.running = Some(thread);
            return None;
        };
        if token.host != self.me {
            return Some((token.host, Message::Lgoto { token }));
        }
        self.pop_or_ignore(code, &token);
        None
    }

    fn take(&mut self, code: &Code, from: HostId, message: Message) -> Result<Sent, HostError> {
        let passes = match message {
            Message::Get { field, .. } => has_bit(&self.checks.gets, field.0, from),
            Message::Set { field, .. } => has_bit(&self.checks.sets, field.0, from),
            Message::Forward { var, .. } => has_bit(&self.checks.forwards, var.0, from),
            Message::Sync { entry, .. } | Message::Rgoto { entry, .. } => has_bit(&self.checks.enters, entry.0, from),
            Message::RgotoWith { entry, ref riders, .. } => {
                has_bit(&self.checks.enters, entry.0, from)
                    && riders.pairs[..riders.count as usize]
                        .iter()
                        .all(|(var, _)| has_bit(&self.checks.forwards, var.0, from))
            }
            _ => true,
        };
        if !passes {
            self.ignored += 1;
            return Ok(None);
        }
        match message {
            Message::Get { request, field, index } => {
                let value = self.stores.element(field, index);
                return Ok(Some((from, Message::Value { request, value })));
            }
            Message::Set { request, field, index, value } => {
                self.stores.set_element(field, index, value);
                return Ok(Some((from, Message::Ack { request })));
            }
            Message::Forward { request, frame, var, value } => {
                self.stores.set_variable(frame, var, value);
                return Ok(Some((from, Message::Ack { request })));
            }
            Message::Sync { request, frame, entry, token } => {
                let token = self.stack.push(self.me, entry, frame, token);
                return Ok(Some((from, Message::Token { request, token })));
            }
            Message::Rgoto { frame, entry, token } => self.enter(code, entry, frame, token),
            Message::RgotoWith { frame, entry, token, riders } => {
                for (var, value) in &riders.pairs[..riders.count as usize] {
                    self.stores.set_variable(frame, *var, *value);
                }
                self.enter(code, entry, frame, token);
            }
            Message::Lgoto { token } => self.pop_or_ignore(code, &token),
            Message::Value { request, value } => {
                self.wake(Awaited::Value, request, from, |thread| thread.add_temporary(value))?;
            }
            Message::Ack { request } => self.wake(Awaited::Ack, request, from, |_| Ok(()))?,
            Message::Token { request, token } => {
                self.wake(Awaited::Token, request, from, |thread| {
                    thread.held = Some(token);
                    Ok(())
                })?;
            }
        }
        Ok(None)
    }

    /// The thread that waits for such an answer from this host runs again, once the answer is laid in it.
    fn wake(
        &mut self,
        awaited: Awaited,
        request: RequestId,
        from: HostId,
        answer: impl FnOnce(&mut Thread) -> Result<(), HostError>,
    ) -> Result<(), HostError> {
        let place = self
            .waiting
            .iter()
            .position(|waiting| waiting.awaited == awaited && waiting.request == request && waiting.asked == from);
        let Some(place) = place else {
            self.ignored += 1;
            return Ok(());
        };
        answer(&mut self.waiting[place].thread)?;
        self.running = Some(self.waiting.remove(place).thread);
        Ok(())
    }

    fn wait(&mut self, at: u32, thread: Thread, awaited: Awaited, asked: HostId) -> RequestId {
        let count = self.requests.get(at as usize).copied().unwrap_or(0);
        count_one(&mut self.requests, at);
        let request = RequestId { at, count };
        self.waiting.push(Waiting { thread, awaited, request, asked });
        request
    }

    fn enter(&mut self, code: &Code, entry: EntryId, frame: FrameId, held: Token) {
        self.running = code.entry(entry).map(|there| Thread::new(there.at, frame, held));
    }

    fn pop_or_ignore(&mut self, code: &Code, token: &Token) {
        match self.stack.take(token) {
            Some(top) if top.entry == HALT => self.halted = true,
            Some(top) => self.enter(code, top.entry, top.frame, top.kept),
            None => self.ignored += 1,
        }
    }

    /// The value of an expression in a thread.
    fn value(&mut self, thread: &Thread, nodes: &[Node]) -> i64 {
        let values = &mut self.values;
        values.clear();
        for node in nodes {
            match *node {
                Node::Number(number) => values.push(number),
                Node::Var(var) => values.push(self.stores.variable(thread.frame, var)),
                Node::Temp(temp) => values.push(thread.temporaries.get(temp as usize).copied().unwrap_or(0)),
                Node::Not => {
                    if let Some(value) = values.last_mut() {
                        *value = i64::from(*value == 0);
                    }
                }
                Node::Negate => {
                    if let Some(value) = values.last_mut() {
                        *value = value.wrapping_neg();
                    }
                }
                Node::Binary(op) => run_binary(values, op),
            }
        }
        values.pop().unwrap_or(0)
    }
}

fn run_binary(values: &mut Vec<i64>, op: BinOp) {
    if let Some([left, right]) = values.last_chunk() {
        let value = op.value(*left, *right);
        values.pop();
        values.pop();
        values.push(value);
    }
}

fn count_one(counts: &mut [u64], place: u32) {
    if let Some(count) = counts.get_mut(place as usize) {
        *count += 1;
    }
}
