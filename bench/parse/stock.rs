//! The parser in stock Rust, to compare with. `stock text` writes a program of 1 MiB with 4,096 statements,
//! `stock FILE ROUNDS` measures.

mod parser;

use parser::{lex, parse};
use std::time::Instant;

// ---- a text to measure with

/// A value of about so many bytes.
fn value(bytes: usize) -> String {
    let mut text = String::from("total");
    let terms = [" + (first * 17 - row[i])", " - -row[i + 1] / 2", " + first % (5 + !i)", " * 3", " + last"];
    let mut n = 0;
    while text.len() + terms[n % 5].len() <= bytes {
        text.push_str(terms[n % 5]);
        n += 1;
    }
    text
}

/// A program of at most 1 MiB, with 4,096 statements in 128 methods.
fn text() -> String {
    let mut text = String::from("int{P: Q} first = 1;\nint{P: Q} last = -2;\nint{P: Q} row[1000];\nint{P: Q} total;\n");
    for method in 0..128 {
        text.push_str(&format!("int{{P: Q}} m{method}{{?: P}}(int{{P:}} i, int{{}} j) where authority(P) {{\n"));
        for part in 0..5 {
            text.push_str(&format!("  int{{P: Q; ?: P}} local{part} = {};\n", value(355)));
            text.push_str(&format!("  if (i < {part} && last == j || total != 0) {{\n    total = {};\n  }}", value(320)));
            text.push_str(&format!(" else {{\n    row[i] = {};\n  }}\n", value(355)));
            text.push_str(&format!("  while (i > {part}) {{\n    total = m1(i, {});\n  }}\n", value(332)));
        }
        text.push_str(&format!("  return declassify({}, {{P: Q}});\n}}\n", value(332)));
    }
    text
}

fn main() {
    let words: Vec<String> = std::env::args().skip(1).collect();
    if words.first().map(String::as_str) == Some("text") {
        print!("{}", text());
        return;
    }
    let bytes = std::fs::read(&words[0]).expect("a file");
    let rounds: usize = words[1].parse().expect("a number of rounds");
    let tokens = lex(&bytes).expect("tokens");
    let mut least = u128::MAX;
    for _ in 0..rounds {
        let start = Instant::now();
        let draft = parse(&tokens);
        let took = start.elapsed().as_nanos();
        least = least.min(took);
        if let Err(error) = draft {
            println!("{error:?}");
            return;
        }
    }
    println!("{} tokens: {} microseconds", tokens.len(), least / 1000);
}
