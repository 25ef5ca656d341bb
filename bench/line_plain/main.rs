//! The line in plain Rust, written for the comparison with the proved one: the same tables in memory, what a
//! Rust programmer writes who wants it fast and has no proofs to carry. `bench/line` runs it.

mod bid;
mod control;
mod line;
#[path = "../plain.rs"]
mod plain;
mod random;
mod record;
mod report;
mod scripts;
mod tributary;
mod workload;

use std::error::Error;
use workload::Hearing;

fn main() -> Result<(), Box<dyn Error>> {
    let words: Vec<String> = std::env::args().skip(1).collect();
    let words: Vec<&str> = words.iter().map(String::as_str).collect();
    match words[..] {
        [] => {
            workload::polls(3, 100, Hearing::Sent)?;
            workload::texts(3, 0, 10, Hearing::Octets)?;
            scripts::play(1, 10, 100);
        }
        ["polls", terminals, events, hearing] => {
            workload::polls(terminals.parse()?, events.parse()?, hearing_of(hearing)?)?.print();
        }
        ["texts", terminals, history, visits, hearing] => {
            let (terminals, history) = (terminals.parse()?, history.parse()?);
            workload::texts(terminals, history, visits.parse()?, hearing_of(hearing)?)?.print();
        }
        ["scripts", seed, scripts, events] => {
            scripts::play(seed.parse()?, scripts.parse()?, events.parse()?);
        }
        _ => return Err("not a workload".into()),
    }
    Ok(())
}

fn hearing_of(word: &str) -> Result<Hearing, String> {
    match word {
        "sent" => Ok(Hearing::Sent),
        "octets" => Ok(Hearing::Octets),
        "padded" => Ok(Hearing::Padded),
        _ => Err(format!("{word} is not sent, octets or padded")),
    }
}
