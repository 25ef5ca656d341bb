//! How long each side takes, in turns: the best of several rounds, each long enough for the clock.

use crate::content::{Content, bsc_decode, bsc_encode, kind};
use crate::inputs::{self, Random};
use crate::plain_calls::{plain_decode, plain_encode};
use std::hint::black_box;
use std::time::{Duration, Instant};

/// How often each side has its turn.
const ROUNDS: usize = 150;

/// How long a turn takes at least: so short that some are left alone by whatever else the machine does.
const TURN: Duration = Duration::from_millis(4);

/// How many inputs of a sort there are, so that no branch is learnt from one of them.
const INPUTS: usize = 32;

type Make = fn(&mut Random, usize) -> Vec<u8>;

/// What is decoded against the clock.
pub const DECODED: [(&str, Make); 8] = [
    ("control sequences and calls", inputs::short),
    ("text, 1,033 octets", |random, _| inputs::full_text(random)),
    ("the same, one bit turned", |random, _| {
        inputs::turned_text(random)
    }),
    ("the same, last check wrong", |random, _| {
        inputs::wrong_text(random)
    }),
    ("text with fill, 2,048 octets", |random, _| {
        inputs::filled_text(random)
    }),
    ("2,048 octets of SYN", |_, _| vec![0x16; 2048]),
    ("2,048 octets of 55", |_, _| vec![0x55; 2048]),
    ("2,048 random octets", |random, _| {
        (0..2048).map(|_| random.octet()).collect()
    }),
];

pub fn inputs(random: &mut Random, make: Make) -> Vec<Vec<u8>> {
    (0..INPUTS).map(|number| make(random, number)).collect()
}

/// Messages without a text, for encoding.
pub fn shorts(random: &mut Random) -> Vec<(u32, Content)> {
    inputs(random, inputs::short)
        .iter()
        .map(|octets| content_of(octets))
        .collect()
}

/// Full texts, for encoding.
pub fn texts(random: &mut Random) -> Vec<(u32, Content)> {
    inputs(random, |random, _| inputs::full_text(random))
        .iter()
        .map(|octets| content_of(octets))
        .collect()
}

fn content_of(octets: &[u8]) -> (u32, Content) {
    let mut content = Content::of(0);
    let kind = plain_decode(octets.as_ptr(), octets.len(), &mut content);
    assert!(kind >= kind::EOT);
    (kind, content)
}

/// How many nanoseconds a call takes in this turn, each call over the next of the inputs.
fn turn<T>(inputs: &[T], mut call: impl FnMut(&T)) -> f64 {
    let started = Instant::now();
    let mut calls = 0;
    loop {
        for input in inputs {
            call(black_box(input));
        }
        calls += inputs.len();
        let passed = started.elapsed();
        if passed >= TURN {
            return passed.as_nanos() as f64 / calls as f64;
        }
    }
}

/// The best turn of each side.
fn best<T>(inputs: &[T], mut proved: impl FnMut(&T), mut plain: impl FnMut(&T)) -> (f64, f64) {
    let mut best = (f64::MAX, f64::MAX);
    for _ in 0..ROUNDS {
        best.0 = best.0.min(turn(inputs, &mut proved));
        best.1 = best.1.min(turn(inputs, &mut plain));
    }
    best
}

pub fn heading(what: &str) {
    println!();
    println!(
        "{:28} {:^21}  {:^21}",
        "", "ns a transmission", "million octets/s"
    );
    println!(
        "{what:28} {:>10} {:>10}  {:>10} {:>10} {:>7}",
        "proved", "plain", "proved", "plain", "ratio"
    );
}

fn line(name: &str, octets: usize, (proved, plain): (f64, f64)) {
    let rate = |nanoseconds: f64| octets as f64 / INPUTS as f64 / nanoseconds * 1000.0;
    println!(
        "{name:28} {proved:10.1} {plain:10.1}  {:10.0} {:10.0} {:7.2}",
        rate(proved),
        rate(plain),
        proved / plain
    );
}

pub fn decoding(name: &str, inputs: &[Vec<u8>]) {
    let mut content = Content::of(0);
    let mut plain_content = Content::of(0);
    let octets = inputs.iter().map(Vec::len).sum();
    let times = best(
        inputs,
        // SAFETY: a vector's own address and length.
        |octets| {
            black_box(unsafe { bsc_decode(octets.as_ptr(), octets.len(), &mut content) });
        },
        |octets| {
            black_box(plain_decode(
                octets.as_ptr(),
                octets.len(),
                &mut plain_content,
            ));
        },
    );
    line(name, octets, times);
}

pub fn encoding(name: &str, contents: &[(u32, Content)]) {
    let mut wire = [0u8; 1100];
    let mut plain_wire = [0u8; 1100];
    let octets = contents
        .iter()
        .map(|(kind, content)| {
            plain_encode(*kind, content, plain_wire.as_mut_ptr(), plain_wire.len())
        })
        .sum();
    let times = best(
        contents,
        // SAFETY: an array's own address and length.
        |(kind, content)| {
            black_box(unsafe { bsc_encode(*kind, content, wire.as_mut_ptr(), wire.len()) });
        },
        |(kind, content)| {
            black_box(plain_encode(
                *kind,
                content,
                plain_wire.as_mut_ptr(),
                plain_wire.len(),
            ));
        },
    );
    line(name, octets, times);
}
