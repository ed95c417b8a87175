//! A merge in stock Rust: merge ROUNDS T A reads the journals of the nodes of T and A, which ran the code that a loop of
//! two hosts is split into, and prints what `jifmerge` prints: the one list of events that meets both. Lines that tell of
//! no step are skipped.

mod code;
mod host;
mod lent_loop;
mod message;
mod printed;
mod script;
mod sha256;
mod split_loop;
mod world;

use code::{Code, HostId};
use printed::put_message;
use script::HOSTS;
use split_loop::split_loop;
use std::env;
use std::fs;
use std::io::{self, BufWriter, Write};
use std::process::ExitCode;
use world::{Event, World};

/// The lines of a journal that tell of steps, of which the first ones are met.
struct Journal {
    text: String,
    at: usize,
    line: u32,
}

impl Journal {
    fn read(name: &str) -> Result<Self, String> {
        let text = fs::read_to_string(name).map_err(|_| format!("{name}: no such file"))?;
        Ok(Journal { text, at: 0, line: 0 })
    }

    /// The next line that tells of a step.
    fn next(&mut self) -> Option<&str> {
        loop {
            let rest = self.text.get(self.at..).filter(|rest| !rest.is_empty())?;
            let line = rest.split('\n').next().unwrap_or(rest);
            let skipped = line.is_empty() || line.starts_with("bad ") || line.starts_with("done ");
            if !skipped {
                let end = self.at + line.len();
                return self.text.get(self.at..end);
            }
            let len = line.len();
            self.pass(len);
        }
    }

    fn pass(&mut self, len: usize) {
        self.at += len + 1;
        self.line += 1;
    }

    /// Whether this is the next line, which is then met.
    fn meets(&mut self, due: &str) -> bool {
        let Some(line) = self.next() else { return false };
        let (is, len) = (line == due, line.len());
        if is {
            self.pass(len);
        }
        is
    }
}

fn printed(front: &str, message: &message::Message) -> String {
    let mut text = front.as_bytes().to_vec();
    let put = put_message(&mut text, message);
    match (put, String::from_utf8(text)) {
        (Ok(()), Ok(text)) => text,
        _ => String::new(),
    }
}

/// The host that makes the step of an event, and its line.
fn line_of(world: &World, event: &Event) -> Option<(HostId, String)> {
    match event {
        Event::Turn(host) => Some((*host, "turn".to_string())),
        Event::Take(from, to, place) => {
            let message = world.in_flight(*from, *to).nth(*place as usize)?;
            let sender = HOSTS[from.0 as usize];
            Some((*to, printed(&format!("take {sender} "), message)))
        }
        Event::Act(..) => None,
    }
}

fn put_event(out: &mut impl Write, event: &Event) -> io::Result<()> {
    match event {
        Event::Turn(host) => writeln!(out, "turn {}", HOSTS[host.0 as usize]),
        Event::Take(from, to, place) => {
            writeln!(out, "take {} {} {place}", HOSTS[from.0 as usize], HOSTS[to.0 as usize])
        }
        Event::Act(..) => Ok(()),
    }
}

fn in_flight(world: &World, from: HostId, to: HostId) -> usize {
    world.in_flight(from, to).count()
}

/// Puts the events that meet both journals, or says whose journal is left.
fn merge(code: &Code, journals: &mut [Journal; 2], out: &mut impl Write) -> Result<(), String> {
    let mut world = World::start(code, 0);
    while let Some(event) = world.next_event() {
        let Some((me, due)) = line_of(&world, &event) else { break };
        if !journals[me.0 as usize].meets(&due) {
            break;
        }
        let other = HostId(1 - me.0);
        let before = in_flight(&world, me, other);
        world.apply(code, &event).map_err(|_| "an event is refused".to_string())?;
        put_event(out, &event).map_err(|_| "no output".to_string())?;
        if in_flight(&world, me, other) > before {
            let Some(message) = world.in_flight(me, other).last() else { break };
            let due = printed(&format!("send {} ", HOSTS[other.0 as usize]), message);
            if !journals[me.0 as usize].meets(&due) {
                break;
            }
        }
    }
    out.flush().map_err(|_| "no output".to_string())?;
    match journals.iter_mut().position(|journal| journal.next().is_some()) {
        Some(place) => Err(format!("{} line {}: no list meets this", HOSTS[place], journals[place].line + 1)),
        None => Ok(()),
    }
}

fn main() -> ExitCode {
    let words: Vec<String> = env::args().skip(1).collect();
    let [rounds, t, a] = words.as_slice() else {
        return ExitCode::from(2);
    };
    let Ok(rounds) = rounds.parse::<i64>() else {
        return ExitCode::from(2);
    };
    let merged = Journal::read(t).and_then(|t| {
        let mut journals = [t, Journal::read(a)?];
        merge(&split_loop(rounds), &mut journals, &mut BufWriter::new(io::stdout().lock()))
    });
    match merged {
        Ok(()) => ExitCode::SUCCESS,
        Err(why) => {
            eprintln!("stock: {why}");
            ExitCode::from(4)
        }
    }
}
