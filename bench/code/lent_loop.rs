//! The instructions of a loop over two hosts that lends a statement, for stock Rust beside `drive` and `replay`.

use crate::code::{B, BinOp, EntryId, FieldId, Instr, Node, Op};

/// The counter of the loop, on the first host.
pub const N: FieldId = FieldId(0);

/// What is added up, on the second host.
pub const S: FieldId = FieldId(1);

fn number(value: i64) -> Vec<Node> {
    vec![Node::Number(value)]
}

fn with(operator: BinOp, second: Node) -> Vec<Node> {
    vec![Node::Temp(0), second, Node::Binary(operator)]
}

/// The parts of `while (n < ROUNDS) { s = s + n; n = n + 1; }`, where the first statement of the body is lent to the
/// second host. Entry 2 is the head, 3 the return point, and 4 the segment on the second host.
pub fn lent_loop(rounds: i64) -> Vec<Vec<Instr>> {
    let first = vec![
        Op::Read(N, number(0)),
        Op::Branch(with(BinOp::Less, Node::Number(rounds)), 8),
        Op::Push(EntryId(2)),
        Op::Push(EntryId(3)),
        Op::Go(EntryId(4), B),
        Op::Read(N, number(0)),
        Op::Put(N, number(0), with(BinOp::Add, Node::Number(1))),
        Op::Back,
        Op::Back,
    ];
    let second = vec![
        Op::Read(S, number(0)),
        Op::Read(N, number(0)),
        Op::Put(S, number(0), with(BinOp::Add, Node::Temp(1))),
        Op::Back,
    ];
    let part = |ops: Vec<Op>| ops.into_iter().map(|op| Instr { label: 0, op }).collect();
    vec![part(first), part(second)]
}
