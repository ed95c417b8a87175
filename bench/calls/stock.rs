//! Calls in stock Rust: loop COUNT and deep DEPTH run the code that the two programs here are split into, event by
//! event, until nothing happens any more, and print what `jifsplit drive` prints of the events and the field.

mod code;
mod host;
mod message;
mod sha256;
mod world;

use code::{A, BinOp, Code, CodeField, CodeHost, CodeVar, Entry, EntryId, FieldId, HostId, Instr, Label, Node, Op};
use code::{SiteId, VarId};
use std::env;
use std::process::ExitCode;
use world::World;

/// The field.
const N: FieldId = FieldId(0);

/// The parameter of the method.
const X: VarId = VarId(0);

/// The local of the method.
const Y: VarId = VarId(1);

/// The result of the method that gives one back.
const RESULT: VarId = VarId(2);

/// The local of `main`.
const R: VarId = VarId(3);

/// The entry of the method. That of `main` is the next.
const METHOD: EntryId = EntryId(1);

fn number(value: i64) -> Vec<Node> {
    vec![Node::Number(value)]
}

fn operation(left: Node, operator: BinOp, right: i64) -> Vec<Node> {
    vec![left, Node::Number(right), Node::Binary(operator)]
}

/// `while (n < COUNT) { m(n); n = n + 1; }`, where `m` lays its parameter in its local. Entry 3 is the head, and 4 what
/// follows the call.
fn call_loop(count: i64) -> Code {
    let ops = vec![
        Op::Let(Y, vec![Node::Var(X)]),
        Op::Back,
        Op::Read(N, number(0)),
        Op::Branch(operation(Node::Temp(0), BinOp::Less, count), 13),
        Op::Push(EntryId(3)),
        Op::Frame(SiteId(1)),
        Op::Read(N, number(0)),
        Op::Arg(X, vec![Node::Temp(0)]),
        Op::Push(EntryId(4)),
        Op::Call(METHOD, A),
        Op::Read(N, number(0)),
        Op::Put(N, number(0), operation(Node::Temp(0), BinOp::Add, 1)),
        Op::Back,
        Op::Back,
    ];
    on_one_host(ops, &[2, 0, 2, 2, 10], 1, 2)
}

/// `r = f(DEPTH); n = r;`, where `f` sets its local to 0, and to what it gives back for one less where its parameter is
/// above 0, and gives back one more. Entry 3 is what follows the branch, and 4 and 5 what follows the calls.
fn deep_call(depth: i64) -> Code {
    let ops = vec![
        Op::Let(Y, number(0)),
        Op::Push(EntryId(3)),
        Op::Branch(operation(Node::Var(X), BinOp::Greater, 0), 9),
        Op::Frame(SiteId(1)),
        Op::Arg(X, operation(Node::Var(X), BinOp::Subtract, 1)),
        Op::Push(EntryId(4)),
        Op::Call(METHOD, A),
        Op::Let(Y, vec![Node::Var(RESULT)]),
        Op::Back,
        Op::Back,
        Op::Ret(RESULT, operation(Node::Var(Y), BinOp::Add, 1)),
        Op::Back,
        Op::Let(R, number(0)),
        Op::Frame(SiteId(2)),
        Op::Arg(X, number(depth)),
        Op::Push(EntryId(5)),
        Op::Call(METHOD, A),
        Op::Let(R, vec![Node::Var(RESULT)]),
        Op::Put(N, number(0), vec![Node::Var(R)]),
        Op::Back,
    ];
    on_one_host(ops, &[12, 0, 12, 10, 7, 17], 2, 4)
}

/// The code of one host, whose entries stand at these places. The field starts with 1 in this world.
fn on_one_host(ops: Vec<Op>, entries: &[u32], sites: usize, vars: usize) -> Code {
    Code {
        hosts: vec![CodeHost { label: Label::empty() }],
        labels: vec![Label::empty()],
        fields: vec![CodeField { label: 0, host: A }],
        vars: (0..vars).map(|_| CodeVar { label: 0 }).collect(),
        entries: entries.iter().map(|&at| Entry { host: A, at, label: 0, need: 0 }).collect(),
        sites: vec![A; sites],
        parts: vec![ops.into_iter().map(|op| Instr { label: 0, op }).collect()],
        root: A,
        main: EntryId(2),
    }
}

fn field(world: &World, host: HostId, field: FieldId) -> i64 {
    world.host(host).map_or(0, |there| there.element(field, 0))
}

/// The code that the words ask for.
fn code_of(words: &[String]) -> Option<Code> {
    let [name, number] = words else {
        return None;
    };
    let number = number.parse().ok()?;
    match name.as_str() {
        "loop" => Some(call_loop(number)),
        "deep" => Some(deep_call(number)),
        _ => None,
    }
}

fn main() -> ExitCode {
    let words: Vec<String> = env::args().skip(1).collect();
    let Some(code) = code_of(&words) else {
        return ExitCode::from(2);
    };
    let mut world = World::start(&code, 0);
    let mut events = 0_u64;
    while let Some(event) = world.next_event() {
        if world.apply(&code, &event).is_err() {
            return ExitCode::FAILURE;
        }
        events += 1;
    }
    println!("events {events}");
    println!("field n = {}", field(&world, A, N));
    ExitCode::SUCCESS
}
