//! The same walk in stock Rust, over a host with the whole host table.

mod code;
mod host;
mod message;
mod sha256;

use code::{A, B, Code, RequestId, X, loop_code};
use host::{Host, HostError};
use message::{KEY_BYTES, Message};
use std::hint::black_box;
use std::process::ExitCode;

const ROUNDS: u64 = 2_000_000;

/// The number of the instruction that asks B.
const ASKING: u32 = 3;

/// Four turns of the host, an answer and a turn. Tells whether all came out.
fn round(code: &Code, host: &mut Host, count: u64) -> Result<bool, HostError> {
    for _ in 0..4 {
        if host.rests() {
            return Ok(false);
        }
        black_box(host.turn(code)?);
    }
    let request = RequestId { at: ASKING, count };
    if !host.rests() {
        return Ok(false);
    }
    black_box(host.deliver(code, B, Message::Ack { request })?);
    if host.rests() {
        return Ok(false);
    }
    black_box(host.turn(code)?);
    Ok(true)
}

fn main() -> ExitCode {
    let code = black_box(loop_code());
    let mut host = Host::start(&code, A, [7; KEY_BYTES]);
    for count in 0..ROUNDS {
        if !round(&code, &mut host, count).unwrap_or(false) {
            return ExitCode::FAILURE;
        }
    }
    if host.element(X, 0) == ROUNDS as i64 + 1 { ExitCode::SUCCESS } else { ExitCode::FAILURE }
}
