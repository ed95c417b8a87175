//! The command `make` in stock Rust, to compare with: `stock N` puts the line that `jifsplit make N` puts.
//!
//! It takes the program through what `bench/check` does in stock Rust, which `run` puts into `front.rs`, emits the code of
//! the plan that comes of it, and drives the hosts of `bench/code` in the world of `bench/world` until nothing happens any
//! more. It emits what programs of this command need: a block of assignments, where the host that begins lends or hands
//! the token to the others.

mod code;
mod host;
mod message;
mod sha256;
mod world;

include!("front.rs");

use code::{Code, CodeField, CodeHost, Entry, EntryId, FieldId, HostId, Instr, Node, Op};

const HOSTS_TEXT: &str = r#"principals = ["Alice", "Bob"]
[[host]]
name = "T"
label = "{?:Alice, Bob}"
[[host]]
name = "A"
label = "{Alice:; ?:Alice}"
[[host]]
name = "B"
label = "{Bob:; ?:Bob}"
"#;

fn program_text(count: u64) -> String {
    let mut text = String::from("int{Alice:; ?:Alice} a;\nint{Bob:; ?:Bob} b;\nvoid main{?:Alice, Bob}() {\n");
    for number in 0..count {
        let field = if number % 2 == 0 { 'a' } else { 'b' };
        let _ = writeln!(text, "{field} = {field} + {number};");
    }
    text.push_str("}\n");
    text
}

/// Where a return point goes on that was pushed last.
const UNKNOWN: usize = u32::MAX as usize;

/// The nodes of an expression of numbers, fields and sums, whose fields are read into the next temporaries before.
fn push_expr(nodes: &mut Vec<Node>, part: &mut Vec<Op>, read: &mut u32, expr: &Expr) {
    match expr {
        Expr::Number(value) => nodes.push(Node::Number(*value)),
        Expr::Scalar(field) => {
            part.push(Op::Read(FieldId(*field as u32), vec![Node::Number(0)]));
            nodes.push(Node::Temp(*read));
            *read += 1;
        }
        Expr::Binary(_, left, right) => {
            push_expr(nodes, part, read, left);
            push_expr(nodes, part, read, right);
            nodes.push(Node::Binary(code::BinOp::Add));
        }
        _ => unreachable!("a sum"),
    }
}

/// The code of a program with one method, over the segments of its body.
fn emitted(program: &Program, needs: &Needs, hosts: &Hosts, plan: &Plan) -> Code {
    let costs = counted(program, needs, hosts, plan, None);
    let main = &program.methods[program.main];
    let home = plan.statements[main.head];
    let mut parts: Vec<Vec<Op>> = hosts.hosts.iter().map(|_| Vec::new()).collect();
    let entry = |host: usize, at: usize| Entry { host: HostId(host as u8), at: at as u32, label: 0, need: 0 };
    let mut entries = vec![entry(home, 0), entry(home, 0)];
    let mut spot = Spot::on(home);
    for place in 0..main.body.len() {
        let next = costs.next_spot(spot, &main.body[place..]);
        if next != spot {
            if spot.host != home {
                parts[spot.host].push(Op::Back);
            }
            if spot.back.is_some() {
                assert!(spot.back == Some(home), "a token that comes back");
                let point = last_point(&entries, home);
                entries[point].at = parts[home].len() as u32;
            }
            if next.back.is_some() {
                entries.push(entry(home, UNKNOWN));
                parts[home].push(Op::Push(EntryId(entries.len() as u32 - 1)));
            }
            entries.push(entry(next.host, parts[next.host].len()));
            parts[home].push(Op::Go(EntryId(entries.len() as u32 - 1), HostId(next.host as u8)));
            spot = next;
        }
        let StmtKind::SetField { field, value } = &main.body[place].kind else { unreachable!("an assignment") };
        let (mut nodes, mut read) = (Vec::new(), 0);
        push_expr(&mut nodes, &mut parts[spot.host], &mut read, value);
        parts[spot.host].push(Op::Put(FieldId(*field as u32), vec![Node::Number(0)], nodes));
    }
    parts[spot.host].push(Op::Back);
    let part = |ops: Vec<Op>| ops.into_iter().map(|op| Instr { label: 0, op }).collect();
    Code {
        hosts: hosts.hosts.iter().map(|host| CodeHost { label: code::Label::trusted(host.label.trust) }).collect(),
        labels: vec![code::Label::empty()],
        fields: plan.fields.iter().map(|host| CodeField { label: 0, host: HostId(*host as u8) }).collect(),
        vars: Vec::new(),
        entries,
        sites: Vec::new(),
        parts: parts.into_iter().map(part).collect(),
        root: HostId(home as u8),
        main: EntryId(1),
    }
}

/// The place of the return point that was pushed last.
fn last_point(entries: &[Entry], home: usize) -> usize {
    let last = |entry: &Entry| entry.host.0 as usize == home && entry.at == UNKNOWN as u32;
    entries.iter().rposition(last).expect("a return point")
}

fn made(count: u64) -> Result<String, Stop> {
    let text = program_text(count);
    let Placed { program, hosts, needs, plan, cost, .. } = placed(text.as_bytes(), HOSTS_TEXT.as_bytes())?;
    let code = emitted(&program, &needs, &hosts, &plan);
    let mut world = world::World::start(&code, 0);
    let mut events = 0_u64;
    while let Some(event) = world.next_event() {
        if world.apply(&code, &event).is_err() {
            return Err(Stop(5, "the code does not run".to_owned()));
        }
        events += 1;
    }
    // Fields start with 1 in this world, and with 0 where the command makes one.
    let field = |field: usize| {
        let host = HostId(plan.fields[field] as u8);
        world.host(host).map_or(0, |there| there.element(FieldId(field as u32), 0)) - 1
    };
    Ok(format!("make {count}: cost {cost} events {events} a {} b {}\n", field(0), field(1)))
}

fn main() -> ExitCode {
    let Some(Ok(count)) = std::env::args().nth(1).map(|word| word.parse()) else {
        return ExitCode::from(2);
    };
    match made(count) {
        Ok(text) => {
            print!("{text}");
            ExitCode::SUCCESS
        }
        Err(Stop(status, line)) => {
            eprintln!("jifsplit: {line}");
            ExitCode::from(status)
        }
    }
}
