//! Messages as they are printed, by the names of the loop's hosts and fields.

use crate::code::FrameId;
use crate::message::{Message, Token};
use crate::script::{FIELDS, HOSTS};
use std::io::{self, Write};

fn put_token(out: &mut impl Write, token: &Token) -> io::Result<()> {
    let Token { host, frame: FrameId { site, count }, entry, serial, .. } = token;
    write!(out, "{}:{}.{count}:e{}:{serial}", HOSTS[host.0 as usize], site.0, entry.0)
}

pub fn put_message(out: &mut impl Write, message: &Message) -> io::Result<()> {
    match message {
        Message::Get { request, field, index } => {
            let name = FIELDS[field.0 as usize];
            write!(out, "get {}.{} {name} {index}", request.at, request.count)
        }
        Message::Set { request, field, index, value } => {
            let name = FIELDS[field.0 as usize];
            write!(out, "set {}.{} {name} {index} {value}", request.at, request.count)
        }
        Message::Forward { request, frame, var, value } => {
            let (site, count) = (frame.site.0, frame.count);
            write!(out, "forward {}.{} {site}.{count} {} {value}", request.at, request.count, var.0)
        }
        Message::Sync { request, frame, entry, token } => {
            let (site, count) = (frame.site.0, frame.count);
            write!(out, "sync {}.{} {site}.{count} e{} ", request.at, request.count, entry.0)?;
            put_token(out, token)
        }
        Message::Rgoto { frame, entry, token } => {
            write!(out, "rgoto {}.{} e{} ", frame.site.0, frame.count, entry.0)?;
            put_token(out, token)
        }
        Message::RgotoWith { frame, entry, token, riders } => {
            write!(out, "rgoto {}.{} e{} ", frame.site.0, frame.count, entry.0)?;
            put_token(out, token)?;
            write!(out, " with")?;
            riders.pairs[..riders.count as usize]
                .iter()
                .try_for_each(|(var, value)| write!(out, " {} {value}", var.0))
        }
        Message::Lgoto { token } => {
            write!(out, "lgoto ")?;
            put_token(out, token)
        }
        Message::Value { request, value } => write!(out, "value {}.{} {value}", request.at, request.count),
        Message::Ack { request } => write!(out, "ack {}.{}", request.at, request.count),
        Message::Token { request, token } => {
            write!(out, "token {}.{} ", request.at, request.count)?;
            put_token(out, token)
        }
    }
}
