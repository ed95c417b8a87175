// The frames of the loop of `run` between two processes in stock Rust: as many, of the same sizes, a connection for each,
// and nothing else, or each in an envelope with a number and a tag (`seal.rs`). With no third word it starts itself as the
// second process.
mod seal;
#[path = "../code/sha256.rs"]
mod sha256;

use std::io::{Read, Write};
use std::os::unix::net::{UnixListener, UnixStream};
use std::{env, fs, process};

// a request and its answer, and the right to go on and back
const SIZES: [(usize, usize); 2] = [(30, 26), (63, 47)];
const KEY: [u8; 32] = [7; 32];
const TAG: usize = 32;

/// How frames are sent: as they are, or sealed, with the numbers of the next ones to send and to take.
enum Link {
    Plain,
    Sealed { next: u64, due: u64 },
}

/// The envelope of so many bytes: its length, two hosts, a number, the frame and a tag.
fn envelope(number: u64, size: usize) -> Vec<u8> {
    let mut bytes = ((10 + size + TAG) as u32).to_be_bytes().to_vec();
    bytes.extend([0, 1]);
    bytes.extend(number.to_be_bytes());
    bytes.resize(bytes.len() + size, 0);
    bytes.extend(seal::tag(&KEY, &bytes));
    bytes
}

/// Whether it is the envelope with a number. All bytes of the tags are compared.
fn is_envelope(bytes: &[u8], number: u64) -> bool {
    let (front, tag) = bytes.split_at(bytes.len() - TAG);
    let differ = seal::tag(&KEY, front).iter().zip(tag).fold(0, |differ, (one, other)| differ | (one ^ other));
    differ == 0 && front[6..14] == number.to_be_bytes()
}

fn send(link: &mut Link, path: &str, size: usize) {
    let frame = match link {
        Link::Plain => vec![0u8; size],
        Link::Sealed { next, .. } => {
            *next += 1;
            envelope(*next - 1, size)
        }
    };
    loop {
        match UnixStream::connect(path) {
            Ok(mut stream) => return stream.write_all(&frame).expect("written"),
            Err(_) => std::thread::yield_now(),
        }
    }
}

fn take(link: &mut Link, listener: &UnixListener, size: usize) {
    let (stream, _) = listener.accept().expect("accepted");
    let mut frame = Vec::new();
    stream.take(4_200).read_to_end(&mut frame).expect("read");
    match link {
        Link::Plain => assert_eq!(frame.len(), size),
        Link::Sealed { due, .. } => {
            assert_eq!(frame.len(), 14 + size + TAG);
            assert!(is_envelope(&frame, *due));
            *due += 1;
        }
    }
}

fn main() {
    let words: Vec<String> = env::args().collect();
    let rounds: usize = words[1].parse().expect("a number of rounds");
    let is_second = words.len() > 3;
    let mut link = if words[2] == "sealed" { Link::Sealed { next: 0, due: 0 } } else { Link::Plain };
    let (own, other) = if is_second { ("b.sock", "a.sock") } else { ("a.sock", "b.sock") };
    let _ = fs::remove_file(own);
    let listener = UnixListener::bind(own).expect("bound");
    let second = (!is_second)
        .then(|| process::Command::new(&words[0]).args(&words[1..]).arg("second").spawn().expect("started"));
    for _ in 0..rounds {
        for (there, back) in SIZES {
            if is_second {
                take(&mut link, &listener, there);
                send(&mut link, other, back);
            } else {
                send(&mut link, other, there);
                take(&mut link, &listener, back);
            }
        }
    }
    if let Some(mut second) = second {
        second.wait().expect("ended");
    }
    let _ = fs::remove_file(own);
}
