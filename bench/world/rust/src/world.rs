//! A world of hosts in stock Rust: what is in flight between them, and what misbehaving hosts were sent.

use crate::code::{Code, EntryId, FieldId, FrameId, HOSTS, HostId, RequestId, VarId};
use crate::host::{Host, HostError, Sent};
use crate::message::{KEY_BYTES, Message, Riders, Token};
use std::collections::{TryReserveError, VecDeque};

/// A token that a misbehaving host may present.
#[derive(Clone, Copy, PartialEq)]
#[allow(dead_code)]
pub enum BadToken {
    /// The token with this number among those that misbehaving hosts were sent.
    Sent(u64),
    /// One of its own making.
    Own(Token),
}

/// A message as a misbehaving host makes it.
#[derive(Clone, Copy, PartialEq)]
#[allow(dead_code)]
pub enum BadMessage {
    Get { request: RequestId, field: FieldId, index: i64 },
    Set { request: RequestId, field: FieldId, index: i64, value: i64 },
    Forward { request: RequestId, frame: FrameId, var: VarId, value: i64 },
    Sync { request: RequestId, frame: FrameId, entry: EntryId, token: BadToken },
    Rgoto { frame: FrameId, entry: EntryId, token: BadToken },
    RgotoWith { frame: FrameId, entry: EntryId, token: BadToken, riders: Riders },
    Lgoto { token: BadToken },
    Value { request: RequestId, value: i64 },
    Ack { request: RequestId },
    Token { request: RequestId, token: BadToken },
}

#[derive(Clone, Copy, PartialEq)]
#[allow(dead_code)]
pub enum Event {
    Take(HostId, HostId, u64),
    Turn(HostId),
    Act(HostId, HostId, BadMessage),
}

#[derive(Debug)]
#[allow(dead_code)]
pub enum EventError {
    OutOfMemory,
    NotThere,
    HostBusy,
    NoSuchToken(u64),
    NotBad,
    Stopped,
}

impl From<HostError> for EventError {
    fn from(error: HostError) -> Self {
        match error {
            HostError::OutOfMemory => EventError::OutOfMemory,
            HostError::Stopped => EventError::Stopped,
        }
    }
}

impl From<TryReserveError> for EventError {
    fn from(_: TryReserveError) -> Self {
        EventError::OutOfMemory
    }
}

/// A message in flight, and the place of its label.
#[derive(Clone, Copy)]
struct Flight {
    message: Message,
    label: u32,
}

/// The messages that misbehaving hosts were sent, and the tokens in them.
struct Told {
    messages: Vec<(HostId, HostId, Message)>,
    tokens: Vec<Token>,
}

impl Told {
    fn reserve(&mut self) -> Result<(), EventError> {
        self.messages.try_reserve(1)?;
        self.tokens.try_reserve(1)?;
        Ok(())
    }

    fn push(&mut self, from: HostId, to: HostId, message: Message) {
        self.tokens.extend(message.token());
        self.messages.push((from, to, message));
    }

    fn presented(&self, token: BadToken) -> Option<Token> {
        match token {
            BadToken::Sent(number) => self.tokens.get(number as usize).copied(),
            BadToken::Own(token) => Some(token),
        }
    }

    fn made(&self, made: BadMessage) -> Option<Message> {
        Some(match made {
            BadMessage::Get { request, field, index } => Message::Get { request, field, index },
            BadMessage::Set { request, field, index, value } => Message::Set { request, field, index, value },
            BadMessage::Forward { request, frame, var, value } => Message::Forward { request, frame, var, value },
            BadMessage::Value { request, value } => Message::Value { request, value },
            BadMessage::Ack { request } => Message::Ack { request },
            BadMessage::Sync { request, frame, entry, token } => {
                Message::Sync { request, frame, entry, token: self.presented(token)? }
            }
            BadMessage::Rgoto { frame, entry, token } => Message::Rgoto { frame, entry, token: self.presented(token)? },
            BadMessage::RgotoWith { frame, entry, token, riders } => {
                Message::RgotoWith { frame, entry, token: self.presented(token)?, riders }
            }
            BadMessage::Lgoto { token } => Message::Lgoto { token: self.presented(token)? },
            BadMessage::Token { request, token } => Message::Token { request, token: self.presented(token)? },
        })
    }
}

/// All hosts, none where one misbehaves, a queue for each pair of hosts, and what misbehaving hosts were sent.
pub struct World {
    hosts: Vec<Option<Host>>,
    queues: Vec<VecDeque<Flight>>,
    told: Told,
}

fn place_of(from: HostId, to: HostId) -> usize {
    HOSTS * from.0 as usize + to.0 as usize
}

impl World {
    /// The world before the first event. Host h misbehaves where bit h of `bad` is set.
    pub fn start(code: &Code, bad: u16) -> World {
        let host = |me: u8| (bad >> me & 1 == 0).then(|| Host::start(code, HostId(me), [me; KEY_BYTES]));
        World {
            hosts: (0..code.hosts.len() as u8).map(host).collect(),
            queues: (0..HOSTS * HOSTS).map(|_| VecDeque::new()).collect(),
            told: Told { messages: vec![], tokens: vec![] },
        }
    }

    pub fn host(&self, host: HostId) -> Option<&Host> {
        self.hosts.get(host.0 as usize)?.as_ref()
    }

    /// Sets an element before the first event.
    #[allow(dead_code)]
    pub fn set_element(&mut self, host: HostId, field: FieldId, index: i64, value: i64) {
        if let Some(Some(there)) = self.hosts.get_mut(host.0 as usize) {
            there.set_element(field, index, value);
        }
    }

    /// The messages in flight from the one host to the other.
    #[allow(dead_code)]
    pub fn in_flight(&self, from: HostId, to: HostId) -> impl Iterator<Item = &Message> {
        self.queues[place_of(from, to)].iter().map(|flight| &flight.message)
    }

    /// What misbehaving hosts were sent: by whom, to whom, and the message.
    #[allow(dead_code)]
    pub fn told(&self) -> &[(HostId, HostId, Message)] {
        &self.told.messages
    }

    /// Whether no misbehaving host may see an event, where the list tells it for each label.
    #[allow(dead_code)]
    pub fn is_secret(&self, code: &Code, readable: &[bool], event: &Event) -> bool {
        let hidden = |label: u32| !readable[label as usize];
        match *event {
            Event::Take(from, to, place) => self
                .flying(from, to)
                .and_then(|queue| queue.get(place as usize))
                .is_some_and(|flight| hidden(flight.label)),
            Event::Turn(host) => self
                .host(host)
                .and_then(|there| there.instruction(code))
                .is_some_and(|next| hidden(next.label)),
            Event::Act(..) => false,
        }
    }

    /// Whether misbehaving hosts may see all that is in flight and each instruction that comes next.
    #[allow(dead_code)]
    pub fn is_quiet(&self, code: &Code, readable: &[bool]) -> bool {
        let seen = |label: u32| readable[label as usize];
        self.hosts
            .iter()
            .flatten()
            .filter_map(|host| host.instruction(code))
            .all(|next| seen(next.label))
            && self.queues.iter().flatten().all(|flight| seen(flight.label))
    }

    pub fn apply(&mut self, code: &Code, event: &Event) -> Result<(), EventError> {
        match *event {
            Event::Take(from, to, place) => self.take(code, from, to, place),
            Event::Turn(host) => self.turn(code, host),
            Event::Act(from, to, made) => self.act(code, from, to, made),
        }
    }

    /// A turn of the first host that runs a thread, otherwise a take of the oldest message of the first pair.
    pub fn next_event(&self) -> Option<Event> {
        let runs = |host: &Option<Host>| host.as_ref().is_some_and(|there| !there.rests());
        if let Some(number) = self.hosts.iter().position(runs) {
            return Some(Event::Turn(HostId(number as u8)));
        }
        let hosts = self.hosts.len() as u8;
        for from in (0..hosts).map(HostId) {
            for to in (0..hosts).map(HostId) {
                if self.flying(from, to).is_some_and(|queue| !queue.is_empty()) {
                    return Some(Event::Take(from, to, 0));
                }
            }
        }
        None
    }

    fn turn(&mut self, code: &Code, number: HostId) -> Result<(), EventError> {
        let host = self.host(number).filter(|host| !host.rests()).ok_or(EventError::NotThere)?;
        if host.is_stopped() {
            return Err(EventError::Stopped);
        }
        let label = host.instruction(code).map(|there| there.label);
        self.reserve_from(number)?;
        let sent = self.hosts[number.0 as usize].as_mut().ok_or(EventError::NotThere)?.turn(code)?;
        if let Some(label) = label {
            self.post(number, label, sent);
        }
        Ok(())
    }

    fn take(&mut self, code: &Code, from: HostId, to: HostId, place: u64) -> Result<(), EventError> {
        let flight = self.flying(from, to).and_then(|queue| queue.get(place as usize)).copied();
        let Flight { message, label } = flight.ok_or(EventError::NotThere)?;
        self.check_rests(to)?;
        if self.host(to).is_some_and(Host::is_stopped) {
            return Err(EventError::Stopped);
        }
        self.told.reserve()?;
        self.queues[place_of(to, from)].try_reserve(1)?;
        let sent = self.hosts[to.0 as usize].as_mut().ok_or(EventError::NotThere)?.deliver(code, from, message)?;
        self.queues[place_of(from, to)].remove(place as usize);
        self.post(to, label, sent);
        Ok(())
    }

    fn act(&mut self, code: &Code, from: HostId, to: HostId, made: BadMessage) -> Result<(), EventError> {
        if !self.misbehaves(from) {
            return Err(EventError::NotBad);
        }
        self.check_rests(to)?;
        let message = self.told.made(made).ok_or(EventError::NoSuchToken(self.told.tokens.len() as u64))?;
        self.told.reserve()?;
        let sent = self.hosts[to.0 as usize].as_mut().ok_or(EventError::NotThere)?.deliver(code, from, message)?;
        if let Some((asked, message)) = sent {
            self.told.push(to, asked, message);
        }
        Ok(())
    }

    fn check_rests(&self, host: HostId) -> Result<(), EventError> {
        if self.host(host).ok_or(EventError::NotThere)?.rests() { Ok(()) } else { Err(EventError::HostBusy) }
    }

    fn misbehaves(&self, host: HostId) -> bool {
        matches!(self.hosts.get(host.0 as usize), Some(None))
    }

    fn flying(&self, from: HostId, to: HostId) -> Option<&VecDeque<Flight>> {
        let is_host = |host: HostId| (host.0 as usize) < self.hosts.len();
        if is_host(from) && is_host(to) { self.queues.get(place_of(from, to)) } else { None }
    }

    /// Makes room for what a turn of the host may send.
    fn reserve_from(&mut self, from: HostId) -> Result<(), EventError> {
        self.told.reserve()?;
        for to in (0..self.hosts.len() as u8).map(HostId) {
            self.queues[place_of(from, to)].try_reserve(1)?;
        }
        Ok(())
    }

    fn post(&mut self, from: HostId, label: u32, sent: Sent) {
        if let Some((to, message)) = sent {
            if self.misbehaves(to) {
                self.told.push(from, to, message);
            } else {
                self.queues[place_of(from, to)].push_back(Flight { message, label });
            }
        }
    }
}
