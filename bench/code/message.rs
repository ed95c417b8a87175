//! Tokens and messages in stock Rust.

use crate::code::{EntryId, FieldId, FrameId, HostId, RequestId, VarId};
use crate::sha256::sha256;

pub const KEY_BYTES: usize = 32;

pub const TAG_BYTES: usize = 16;

/// The right to enter once what was pushed on a host's control stack.
#[derive(Clone, Copy, Debug, PartialEq, Eq)]
pub struct Token {
    pub host: HostId,
    pub frame: FrameId,
    pub entry: EntryId,
    pub serial: u64,
    pub tag: [u8; TAG_BYTES],
}

/// The tag of a token of these parts under the key of its host.
pub fn tag(key: &[u8; KEY_BYTES], host: HostId, frame: FrameId, entry: EntryId, serial: u64) -> [u8; TAG_BYTES] {
    let mut text = key.to_vec();
    text.push(host.0);
    text.extend(frame.site.0.to_be_bytes());
    text.extend(frame.count.to_be_bytes());
    text.extend(entry.0.to_be_bytes());
    text.extend(serial.to_be_bytes());
    let mut tag = [0; TAG_BYTES];
    tag.copy_from_slice(&sha256(&text)[..TAG_BYTES]);
    tag
}

/// Up to eight variables with their values, in order.
#[derive(Clone, Copy, Debug, PartialEq)]
pub struct Riders {
    pub count: u8,
    pub pairs: [(VarId, i64); 8],
}

#[derive(Clone, Copy, Debug, PartialEq)]
pub enum Message {
    Get { request: RequestId, field: FieldId, index: i64 },
    Set { request: RequestId, field: FieldId, index: i64, value: i64 },
    Forward { request: RequestId, frame: FrameId, var: VarId, value: i64 },
    Sync { request: RequestId, frame: FrameId, entry: EntryId, token: Token },
    Rgoto { frame: FrameId, entry: EntryId, token: Token },
    #[allow(dead_code)]
    RgotoWith { frame: FrameId, entry: EntryId, token: Token, riders: Riders },
    Lgoto { token: Token },
    Value { request: RequestId, value: i64 },
    Ack { request: RequestId },
    Token { request: RequestId, token: Token },
}

impl Message {
    /// The token in the message. Only a world asks.
    #[allow(dead_code)]
    pub fn token(&self) -> Option<Token> {
        match *self {
            Message::Sync { token, .. }
            | Message::Rgoto { token, .. }
            | Message::RgotoWith { token, .. }
            | Message::Lgoto { token }
            | Message::Token { token, .. } => Some(token),
            _ => None,
        }
    }
}
