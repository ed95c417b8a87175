//! The code that a loop over two hosts is split into, T that all who are asked trust, and A that has what is Alice's.

use crate::code::{A, B, Code, CodeField, CodeHost, Entry, EntryId, HostId, Label};
use crate::lent_loop::lent_loop;

/// The bit of Alice.
const ALICE: u64 = 1;

fn entry(host: HostId, at: u32, need: u64) -> Entry {
    Entry { host, at, label: 0, need }
}

/// The code of so many rounds, on hosts T and A. Fields start with 1 in the worlds of it.
pub fn split_loop(rounds: i64) -> Code {
    let trusted = Label::trusted(ALICE);
    let owned = Label::owned(0, ALICE);
    Code {
        hosts: vec![CodeHost { label: trusted.clone() }, CodeHost { label: owned.clone() }],
        labels: vec![trusted, owned],
        fields: vec![CodeField { label: 0, host: A }, CodeField { label: 1, host: B }],
        vars: vec![],
        entries: vec![
            entry(A, 0, 0),
            entry(A, 0, ALICE),
            entry(A, 0, ALICE),
            entry(A, 5, ALICE),
            entry(B, 0, 0),
        ],
        sites: vec![],
        parts: lent_loop(rounds),
        root: A,
        main: EntryId(1),
    }
}
