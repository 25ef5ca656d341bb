//! The proved decoder and encoder, through `bsc_embed`, beside plain Rust: first that both answer alike, and
//! then how long each takes.

mod clock;
mod compare;
mod content;
mod inputs;
mod plain;
mod plain_calls;

use inputs::Random;

fn main() {
    if let Err(difference) = compare::all() {
        eprintln!("{difference}");
        std::process::exit(1);
    }
    let mut random = Random::new(2);
    clock::heading("decode");
    for (name, make) in clock::DECODED {
        clock::decoding(name, &clock::inputs(&mut random, make));
    }
    clock::heading("encode");
    clock::encoding("control sequences and calls", &clock::shorts(&mut random));
    clock::encoding("text, 1,033 octets", &clock::texts(&mut random));
}
