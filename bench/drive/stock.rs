//! A drive in stock Rust: drive LIMIT runs the code that a loop of two hosts is split into, event by event, until
//! nothing happens any more, and prints what `jifsplit drive` prints of the events and the fields.

mod code;
mod host;
mod lent_loop;
mod message;
mod sha256;
mod world;

use code::{A, B, Code, CodeField, CodeHost, Entry, EntryId, FieldId, HostId, Label};
use lent_loop::{N, S, lent_loop};
use std::env;
use std::process::ExitCode;
use world::World;

fn entry(host: HostId, at: u32) -> Entry {
    Entry { host, at, label: 0, need: 0 }
}

/// The code of the loop, on hosts A and B. Fields start with 1 in this world.
fn split_loop(rounds: i64) -> Code {
    Code {
        hosts: vec![CodeHost { label: Label::empty() }, CodeHost { label: Label::empty() }],
        labels: vec![Label::empty()],
        fields: vec![CodeField { label: 0, host: A }, CodeField { label: 0, host: B }],
        vars: vec![],
        entries: vec![entry(A, 0), entry(A, 0), entry(A, 0), entry(A, 5), entry(B, 0)],
        sites: vec![],
        parts: lent_loop(rounds),
        root: A,
        main: EntryId(1),
    }
}

fn field(world: &World, host: HostId, field: FieldId) -> i64 {
    world.host(host).map_or(0, |there| there.element(field, 0))
}

fn main() -> ExitCode {
    let Some(Ok(rounds)) = env::args().nth(1).map(|word| word.parse::<i64>()) else {
        return ExitCode::from(2);
    };
    let code = split_loop(rounds);
    let mut world = World::start(&code, 0);
    let mut events = 0_u64;
    while let Some(event) = world.next_event() {
        if world.apply(&code, &event).is_err() {
            return ExitCode::FAILURE;
        }
        events += 1;
    }
    println!("events {events}");
    println!("field n = {}", field(&world, A, N));
    println!("field s = {}", field(&world, B, S));
    ExitCode::SUCCESS
}
