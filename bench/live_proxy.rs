//! A bad line between one terminal and the control station: it hands on socket records, loses some
//! of them, and turns one bit of others. The length of a record is never touched. Words: the address
//! of the control station, the number of the terminal, a seed, of how many records one is lost and
//! one has a bit turned (0: none), and for how many milliseconds each record is held. It prints the
//! address at which the terminal connects, and at its end what it did.
//!
//! What becomes of a record is decided by the seed and the number of records before it. A call has to
//! reach all terminals whole or none of them, so each proxy with the same seed does the same to a
//! call; to all else that the control station sends each does what it likes.

use std::io::{Read, Write};
use std::net::{Shutdown, TcpListener, TcpStream};
use std::thread;
use std::time::Duration;

/// What becomes of a record.
enum Fate {
    Lost,
    Turned { bit: u64 },
    Whole,
}

/// How a direction of the line is bad.
#[derive(Clone, Copy)]
struct Badness {
    seed: u64,
    lose_one_in: u64,
    turn_one_in: u64,
    held: Duration,
}

#[derive(Default)]
struct Counts {
    all: u64,
    lost: u64,
    turned: u64,
}

/// A number that looks like any other (splitmix64).
fn mixed(number: u64) -> u64 {
    let mut mixed = number.wrapping_add(0x9e37_79b9_7f4a_7c15);
    mixed = (mixed ^ (mixed >> 30)).wrapping_mul(0xbf58_476d_1ce4_e5b9);
    mixed = (mixed ^ (mixed >> 27)).wrapping_mul(0x94d0_49bb_1331_11eb);
    mixed ^ (mixed >> 31)
}

impl Badness {
    /// What becomes of the record with this number among those of this direction.
    fn fate(&self, direction: u64, number: u64) -> Fate {
        let chance = mixed(mixed(mixed(self.seed) ^ direction) ^ number);
        let is_one_in = |count, of: u64| count != 0 && of % count == 0;
        if is_one_in(self.lose_one_in, chance & 0xffff) {
            Fate::Lost
        } else if is_one_in(self.turn_one_in, (chance >> 16) & 0xffff) {
            Fate::Turned { bit: chance >> 32 }
        } else {
            Fate::Whole
        }
    }
}

/// Whether it is a call: EOT, and an address after it.
fn is_call(octets: &[u8]) -> bool {
    octets.len() > 4 && octets.starts_with(&[0x16, 0x16, 0x04, 0xff])
}

/// The next record; None where the connection has ended.
fn read_record(from: &mut TcpStream) -> Option<Vec<u8>> {
    let mut length = [0; 2];
    from.read_exact(&mut length).ok()?;
    let mut octets = vec![0; usize::from(u16::from_be_bytes(length))];
    from.read_exact(&mut octets).ok()?;
    Some(octets)
}

fn write_record(to: &mut TcpStream, octets: &[u8]) -> std::io::Result<()> {
    let mut record = (octets.len() as u16).to_be_bytes().to_vec();
    record.extend_from_slice(octets);
    to.write_all(&record)
}

/// Hands on what arrives until the connection ends, and then ends the other one.
fn hand_on(mut from: TcpStream, mut to: TcpStream, badness: Badness, direction: u64) -> Counts {
    let mut counts = Counts::default();
    while let Some(mut octets) = read_record(&mut from) {
        thread::sleep(badness.held);
        let direction = if is_call(&octets) { 0 } else { direction };
        let fate = badness.fate(direction, counts.all);
        counts.all += 1;
        match fate {
            Fate::Lost => {
                counts.lost += 1;
                continue;
            }
            Fate::Turned { bit } if !octets.is_empty() => {
                counts.turned += 1;
                let bit = bit % (8 * octets.len() as u64);
                octets[(bit / 8) as usize] ^= 1 << (bit % 8);
            }
            Fate::Turned { .. } | Fate::Whole => {}
        }
        if write_record(&mut to, &octets).is_err() {
            break;
        }
    }
    let _ = to.shutdown(Shutdown::Both);
    let _ = from.shutdown(Shutdown::Both);
    counts
}

fn main() {
    let words: Vec<String> = std::env::args().skip(1).collect();
    let number = |place: usize| -> u64 { words[place].parse().expect("a number") };
    let badness = Badness {
        seed: number(2),
        lose_one_in: number(3),
        turn_one_in: number(4),
        held: Duration::from_millis(number(5)),
    };
    let terminal = number(1);
    let listener = TcpListener::bind("127.0.0.1:0").expect("a listener");
    println!("{}", listener.local_addr().expect("an address"));
    let near = listener.accept().expect("a terminal").0;
    drop(listener);
    let far = TcpStream::connect(&words[0]).expect("a control station");
    for end in [&near, &far] {
        end.set_nodelay(true).expect("a setting");
    }
    let (near_again, far_again) = (
        near.try_clone().expect("an end"),
        far.try_clone().expect("an end"),
    );
    let down = thread::spawn(move || hand_on(far, near, badness, 1 + 2 * terminal));
    let up = thread::spawn(move || hand_on(near_again, far_again, badness, 2 + 2 * terminal));
    for (name, thread) in [("down", down), ("up", up)] {
        let counts = thread.join().expect("a direction");
        println!(
            "terminal {terminal}, {name}: {} transmissions, {} lost, {} with a bit turned",
            counts.all, counts.lost, counts.turned
        );
    }
}
