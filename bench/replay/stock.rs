//! A replay in stock Rust: stock EVENTS reads a script on the code that a loop of two hosts is split into, lets its
//! events happen one by one, and prints what `jifsplit replay` prints. With two scripts, stock EVENTS1 EVENTS2 prints what
//! `jifsplit compare` prints where the same hosts misbehave and all starts alike.

mod code;
mod host;
mod lent_loop;
mod message;
mod printed;
mod script;
mod sha256;
mod split_loop;
mod world;

use code::{Code, FieldId, HostId};
use printed::put_message;
use script::{FIELDS, HOSTS, Script, read_script};
use split_loop::split_loop;
use std::env;
use std::fs;
use std::io::{self, BufWriter, Write};
use std::process::ExitCode;
use world::{Event, EventError, World};

/// The most bytes of a script.
const SCRIPT_BYTES: usize = 1 << 24;

fn put_report(out: &mut impl Write, code: &Code, world: &World) -> io::Result<()> {
    let obeying = || (0..HOSTS.len() as u8).map(HostId).filter_map(|me| Some((me, world.host(me)?)));
    let halted = obeying().any(|(_, host)| host.halted());
    writeln!(out, "halted {}", if halted { "yes" } else { "no" })?;
    for (field, (name, there)) in FIELDS.iter().zip(&code.fields).enumerate() {
        if let Some(host) = world.host(there.host) {
            writeln!(out, "field {name} = {}", host.element(FieldId(field as u32), 0))?;
        }
    }
    for (me, host) in obeying() {
        let running = if host.rests() { 0 } else { 1 };
        let (waiting, depth, ignored) = (host.waiting(), host.depth(), host.ignored());
        let name = HOSTS[me.0 as usize];
        writeln!(out, "host {name}: running {running}, waiting {waiting}, stack {depth}, ignored {ignored}")?;
    }
    for (from, sender) in HOSTS.iter().enumerate() {
        for (to, taker) in HOSTS.iter().enumerate() {
            for (place, message) in world.in_flight(HostId(from as u8), HostId(to as u8)).enumerate() {
                write!(out, "flying {sender} {taker} {place}: ")?;
                put_message(out, message)?;
                writeln!(out)?;
            }
        }
    }
    for (place, (from, to, message)) in world.told().iter().enumerate() {
        write!(out, "sent {place} {} {}: ", HOSTS[from.0 as usize], HOSTS[to.0 as usize])?;
        put_message(out, message)?;
        writeln!(out)?;
    }
    out.flush()
}

/// What is read of a file.
fn script_of(name: &str) -> Result<Script, String> {
    let bytes = fs::read(name).map_err(|_| format!("{name}: no such file"))?;
    if bytes.len() > SCRIPT_BYTES {
        return Err(format!("{name}: too long"));
    }
    read_script(&bytes).map_err(|line| format!("{name} line {line}: no form"))
}

/// The world before the first event of a script.
fn first_world(code: &Code, script: &Script) -> World {
    let mut world = World::start(code, script.bad);
    for &(field, value) in &script.settings {
        world.set_element(code.fields[field.0 as usize].host, field, 0, value);
    }
    world
}

/// Makes an event happen, or says why it is refused.
fn apply(code: &Code, world: &mut World, name: &str, line: u32, event: &Event) -> Result<(), String> {
    world.apply(code, event).map_err(|error| match error {
        EventError::NotThere => format!("{name} line {line}: not there"),
        EventError::HostBusy => format!("{name} line {line}: host busy"),
        EventError::NoSuchToken(sent) => format!("{name} line {line}: no such token of {sent}"),
        EventError::NotBad => format!("{name} line {line}: not misbehaving"),
        EventError::OutOfMemory | EventError::Stopped => "no memory".to_string(),
    })
}

/// Replays a script, or says why it is refused.
fn replay(code: &Code, name: &str) -> Result<World, String> {
    let script = script_of(name)?;
    let mut world = first_world(code, &script);
    for (line, event) in &script.events {
        apply(code, &mut world, name, *line, event)?;
    }
    Ok(world)
}

/// The world that a script leaves, those of its events that may be seen, and the line of the first of them that finds the
/// world not quiet.
struct Run<'a> {
    world: World,
    seen: Vec<&'a (u32, Event)>,
    late: Option<u32>,
}

/// Both labels of this code may be seen by A.
const READABLE: [bool; 2] = [true, true];

fn follow<'a>(code: &Code, name: &str, script: &'a Script) -> Result<Run<'a>, String> {
    let mut run = Run { world: first_world(code, script), seen: vec![], late: None };
    for said in &script.events {
        let (line, event) = said;
        if !run.world.is_secret(code, &READABLE, event) {
            if run.late.is_none() && !run.world.is_quiet(code, &READABLE) {
                run.late = Some(*line);
            }
            run.seen.push(said);
        }
        apply(code, &mut run.world, name, *line, event)?;
    }
    Ok(run)
}

/// Compares the messages of two runs, or says why they cannot be compared.
fn compare(code: &Code, one: &str, other: &str) -> Result<String, String> {
    let (first, second) = (script_of(one)?, script_of(other)?);
    let run = follow(code, one, &first)?;
    let run_too = follow(code, other, &second)?;
    if let Some((said, _)) = run.seen.iter().zip(&run_too.seen).find(|(said, too)| said.1 != too.1) {
        return Err(format!("{one} line {}: events differ", said.0));
    }
    for (name, late) in [(one, run.late), (other, run_too.late)] {
        if let Some(line) = late {
            return Err(format!("{name} line {line}: not prompt"));
        }
    }
    let (told, told_too) = (run.world.told(), run_too.world.told());
    Ok(match told.iter().zip(told_too).position(|(sent, too)| sent != too) {
        Some(place) => format!("differ {place} statement 0"),
        None => format!("agree {} {}", told.len(), told_too.len()),
    })
}

fn main() -> ExitCode {
    let names: Vec<String> = env::args().skip(1).collect();
    let code = split_loop(4);
    if let [one, other] = names.as_slice() {
        return match compare(&code, one, other) {
            Ok(line) => {
                println!("{line}");
                ExitCode::SUCCESS
            }
            Err(why) => {
                eprintln!("stock: {why}");
                ExitCode::from(4)
            }
        };
    }
    let [name] = names.as_slice() else {
        return ExitCode::from(2);
    };
    match replay(&code, name) {
        Ok(world) => {
            let put = put_report(&mut BufWriter::new(io::stdout().lock()), &code, &world);
            if put.is_ok() { ExitCode::SUCCESS } else { ExitCode::from(7) }
        }
        Err(why) => {
            eprintln!("stock: {why}");
            ExitCode::from(4)
        }
    }
}
