//! Scripts in stock Rust: lines that name misbehaving hosts, lines that set starting values, and lines that say events.

use crate::code::{EntryId, FieldId, FrameId, HostId, RequestId, SiteId, VarId};
use crate::message::{Riders, TAG_BYTES, Token};
use crate::world::{BadMessage, BadToken, Event};

pub const HOSTS: [&str; 2] = ["T", "A"];

pub const FIELDS: [&str; 2] = ["n", "s"];

/// The code has no variables.
const VARS: [&str; 0] = [];

pub struct Script {
    /// A word with a bit for each misbehaving host.
    pub bad: u16,
    pub settings: Vec<(FieldId, i64)>,
    /// Each event with the number of its line.
    pub events: Vec<(u32, Event)>,
}

/// What may come next: first hosts that misbehave, then settings, then events.
#[derive(PartialEq, PartialOrd)]
enum Stage {
    Bad,
    Settings,
    Events,
}

/// What a script says, or the number of the first line that has no form.
pub fn read_script(bytes: &[u8]) -> Result<Script, u32> {
    let mut script = Script { bad: 0, settings: vec![], events: vec![] };
    let mut stage = Stage::Bad;
    let text = bytes.strip_suffix(b"\n").unwrap_or(bytes);
    for (number, line) in (1..).zip(text.split(|byte| *byte == b'\n')) {
        let line = line.strip_suffix(b"\r").unwrap_or(line);
        let mut words = words(line);
        let Some(verb) = words.next().filter(|word| !word.starts_with(b"//")) else {
            continue;
        };
        read_line(&mut script, &mut stage, number, verb, words).ok_or(number)?;
    }
    Ok(script)
}

fn words(line: &[u8]) -> impl Iterator<Item = &[u8]> {
    line.split(|byte| matches!(byte, b' ' | b'\t')).filter(|word| !word.is_empty())
}

fn read_line<'a>(
    script: &mut Script,
    stage: &mut Stage,
    number: u32,
    verb: &[u8],
    mut words: impl Iterator<Item = &'a [u8]>,
) -> Option<()> {
    match verb {
        b"bad" if *stage == Stage::Bad => script.bad |= 1 << host(words.next()?)?.0,
        b"set" if *stage <= Stage::Settings => {
            *stage = Stage::Settings;
            let setting = (field(words.next()?)?, signed(words.next()?)?);
            script.settings.push(setting);
        }
        _ => {
            *stage = Stage::Events;
            let event = event(script.bad, verb, &mut words)?;
            script.events.push((number, event));
        }
    }
    words.next().is_none().then_some(())
}

fn event<'a>(bad: u16, verb: &[u8], words: &mut impl Iterator<Item = &'a [u8]>) -> Option<Event> {
    match verb {
        b"turn" => Some(Event::Turn(host(words.next()?)?)),
        b"take" => Some(Event::Take(host(words.next()?)?, host(words.next()?)?, plain(words.next()?)?)),
        b"act" => Some(Event::Act(host(words.next()?)?, host(words.next()?)?, message(bad, words)?)),
        _ => None,
    }
}

fn message<'a>(bad: u16, words: &mut impl Iterator<Item = &'a [u8]>) -> Option<BadMessage> {
    let kind = words.next()?;
    let mut next = || words.next();
    Some(match kind {
        b"get" => BadMessage::Get { request: request(next()?)?, field: field(next()?)?, index: signed(next()?)? },
        b"set" => BadMessage::Set {
            request: request(next()?)?,
            field: field(next()?)?,
            index: signed(next()?)?,
            value: signed(next()?)?,
        },
        b"forward" => BadMessage::Forward {
            request: request(next()?)?,
            frame: frame(next()?)?,
            var: var(next()?)?,
            value: signed(next()?)?,
        },
        b"sync" => BadMessage::Sync {
            request: request(next()?)?,
            frame: frame(next()?)?,
            entry: entry(next()?)?,
            token: token(bad, next()?)?,
        },
        b"rgoto" => {
            let (frame, entry, token) = (frame(next()?)?, entry(next()?)?, token(bad, next()?)?);
            match next() {
                None => BadMessage::Rgoto { frame, entry, token },
                Some(b"with") => BadMessage::RgotoWith { frame, entry, token, riders: riders(next)? },
                Some(_) => return None,
            }
        }
        b"lgoto" => BadMessage::Lgoto { token: token(bad, next()?)? },
        b"value" => BadMessage::Value { request: request(next()?)?, value: signed(next()?)? },
        b"ack" => BadMessage::Ack { request: request(next()?)? },
        b"token" => BadMessage::Token { request: request(next()?)?, token: token(bad, next()?)? },
        _ => return None,
    })
}

/// Pairs up to the end of a line, one to eight.
fn riders<'a>(mut next: impl FnMut() -> Option<&'a [u8]>) -> Option<Riders> {
    let mut riders = Riders { count: 0, pairs: [(VarId(0), 0); 8] };
    while let Some(word) = next() {
        *riders.pairs.get_mut(riders.count as usize)? = (var(word)?, signed(next()?)?);
        riders.count += 1;
    }
    (riders.count > 0).then_some(riders)
}

fn token(bad: u16, word: &[u8]) -> Option<BadToken> {
    if let Some(digits) = word.strip_prefix(b"#") {
        return Some(BadToken::Sent(plain(digits)?));
    }
    let mut parts = word.strip_prefix(b"own:")?.split(|byte| *byte == b':');
    let mut next = || parts.next();
    let host = host(next()?).filter(|host| bad >> host.0 & 1 == 1)?;
    let (frame, entry, serial) = (frame(next()?)?, entry(next()?)?, plain(next()?)?);
    let token = Token { host, frame, entry, serial, tag: [0; TAG_BYTES] };
    parts.next().is_none().then_some(BadToken::Own(token))
}

fn place(names: &[&str], word: &[u8]) -> Option<usize> {
    names.iter().position(|name| name.as_bytes() == word)
}

fn host(word: &[u8]) -> Option<HostId> {
    Some(HostId(place(&HOSTS, word)? as u8))
}

fn field(word: &[u8]) -> Option<FieldId> {
    Some(FieldId(place(&FIELDS, word)? as u32))
}

fn var(word: &[u8]) -> Option<VarId> {
    Some(VarId(place(&VARS, word)? as u32))
}

/// `A.B`
fn pair(word: &[u8]) -> Option<(u32, u64)> {
    let dot = word.iter().position(|byte| *byte == b'.')?;
    Some((plain(&word[..dot])?.try_into().ok()?, plain(&word[dot + 1..])?))
}

fn request(word: &[u8]) -> Option<RequestId> {
    let (at, count) = pair(word)?;
    Some(RequestId { at, count })
}

fn frame(word: &[u8]) -> Option<FrameId> {
    let (site, count) = pair(word)?;
    Some(FrameId { site: SiteId(site), count })
}

fn entry(word: &[u8]) -> Option<EntryId> {
    Some(EntryId(plain(word.strip_prefix(b"e")?)?.try_into().ok()?))
}

/// `0`, or digits without a leading 0.
fn plain(word: &[u8]) -> Option<u64> {
    if word.is_empty() || (word[0] == b'0' && word.len() > 1) {
        return None;
    }
    word.iter().try_fold(0_u64, |value, byte| {
        let digit = byte.is_ascii_digit().then(|| u64::from(byte - b'0'))?;
        value.checked_mul(10)?.checked_add(digit)
    })
}

fn signed(word: &[u8]) -> Option<i64> {
    match word.strip_prefix(b"-") {
        Some(digits) => 0_i64.checked_sub_unsigned(plain(digits).filter(|value| *value > 0)?),
        None => plain(word)?.try_into().ok(),
    }
}
