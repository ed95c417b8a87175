//! The walk of a world of two hosts in stock Rust: bench_world ROUNDS, and with one more word the events are chosen.

mod code;
mod host;
mod message;
mod sha256;
mod world;

use code::{A, B, Code, FieldId, HostId, X, Y, loop_code};
use std::env;
use std::hint::black_box;
use std::process::ExitCode;
use world::{Event, EventError, World};

/// The events of a round.
const ROUND: u64 = 7;

fn round(code: &Code, world: &mut World) -> Result<(), EventError> {
    for _ in 0..4 {
        world.apply(code, &Event::Turn(A))?;
    }
    world.apply(code, &Event::Take(A, B, 0))?;
    world.apply(code, &Event::Take(B, A, 0))?;
    world.apply(code, &Event::Turn(A))
}

fn run(code: &Code, world: &mut World, rounds: u64, choose: bool) -> Result<(), EventError> {
    if choose {
        for _ in 0..rounds * ROUND {
            let event = world.next_event().ok_or(EventError::NotThere)?;
            world.apply(code, &event)?;
        }
    } else {
        for _ in 0..rounds {
            round(code, world)?;
        }
    }
    Ok(())
}

fn field(world: &World, host: HostId, field: FieldId) -> i64 {
    world.host(host).map_or(0, |there| there.element(field, 0))
}

fn main() -> ExitCode {
    let words: Vec<String> = env::args().skip(1).collect();
    let Some(Ok(rounds)) = words.first().map(|word| word.parse::<u32>()) else {
        return ExitCode::from(2);
    };
    let code = black_box(loop_code());
    // No host misbehaves, which the compiler is not to know.
    let mut world = World::start(&code, black_box(0));
    if run(&code, &mut world, u64::from(rounds), words.len() > 1).is_err() {
        return ExitCode::FAILURE;
    }
    let came = (field(&world, A, X), field(&world, B, Y));
    if came == (i64::from(rounds) + 1, 7) { ExitCode::SUCCESS } else { ExitCode::FAILURE }
}
