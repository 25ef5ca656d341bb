//! The peers that `bench/field` sets beside its stations: what stands between stations and makes the
//! line slow, bad or silent, and strangers that connect to one. The first word is the role, the
//! others are its words:
//!
//! - `proxy ADDRESS MS ONE_IN SEED FRAMING PATH`: hands on what arrives on each connection to a new
//!   one with ADDRESS, and back. It holds each transmission for MS milliseconds, loses one of ONE_IN
//!   (0: none), and hands on nothing any more once there is a file at PATH. FRAMING says what a
//!   transmission is: `records`, or `octets` that one read takes
//! - `hub ADDRESS LINKS TERMINALS MS WAY`: takes this many terminals, and then connects to the control
//!   station at ADDRESS this many times. Each socket record that arrives goes, after MS
//!   milliseconds, to all others (WAY is `all`), or to all of the other side (`across`)
//! - `checks ADDRESS MS`: connects and closes, each MS milliseconds
//! - `trickle ADDRESS MS`: connects, and sends a socket record of 2,048 octets, an octet each MS
//!   milliseconds
//! - `noise ADDRESS MS`: connects, and sends a socket record of noise each MS milliseconds
//! - `deaf ADDRESS`: connects, sends nothing and reads nothing
//! - `leave ADDRESS MS`: connects, waits for a poll of `A` in raw octets, sends a text with the
//!   record HI, and closes the connection after MS milliseconds
//!
//! A proxy and a hub print the address at which they listen. Each ends after a minute at the latest.

use std::io::{Read, Write};
use std::net::{Shutdown, TcpListener, TcpStream};
use std::os::fd::AsRawFd;
use std::path::PathBuf;
use std::sync::mpsc::{Receiver, Sender, channel};
use std::thread;
use std::time::{Duration, Instant};

/// The longest that a peer runs.
const LONGEST: Duration = Duration::from_secs(60);

/// The octets of a poll of the address `A`, and of a text with the record HI.
const POLL: [u8; 9] = [0x16, 0x16, 0x04, 0xff, 0x16, 0x16, 0xc1, 0x85, 0xff];
const TEXT: [u8; 9] = [0x16, 0x16, 0x02, 0xc8, 0x49, 0x19, 0x83, 0x9b, 0xff];

/// How transmissions are told apart on a connection.
#[derive(Clone, Copy)]
enum Framing {
    Records,
    Octets,
}

impl Framing {
    /// The next transmission, with its length if it is a record; None where the connection ends.
    fn read(self, from: &mut TcpStream) -> Option<Vec<u8>> {
        match self {
            Framing::Records => {
                let mut length = [0; 2];
                from.read_exact(&mut length).ok()?;
                let mut octets = length.to_vec();
                octets.resize(2 + usize::from(u16::from_be_bytes(length)), 0);
                from.read_exact(&mut octets[2..]).ok()?;
                Some(octets)
            }
            Framing::Octets => {
                let mut octets = vec![0; 4096];
                let count = from.read(&mut octets).ok().filter(|count| *count > 0)?;
                octets.truncate(count);
                Some(octets)
            }
        }
    }

    /// Whether it is a call: EOT, and an address after it.
    fn is_call(self, transmission: &[u8]) -> bool {
        let octets = match self {
            Framing::Records => &transmission[2..],
            Framing::Octets => transmission,
        };
        octets.len() > 4 && octets.starts_with(&POLL[..4])
    }
}

/// A transmission, and when it is to be sent.
struct Due {
    at: Instant,
    octets: Vec<u8>,
}

/// Sends each transmission when it is due, and ends the connection after the last one.
fn send(dues: Receiver<Due>, mut to: TcpStream) {
    for Due { at, octets } in dues {
        thread::sleep(at.saturating_duration_since(Instant::now()));
        if to.write_all(&octets).is_err() {
            break;
        }
    }
    let _ = to.shutdown(Shutdown::Both);
}

/// Begins to send on this connection what is given to the sender that it returns.
fn sends(to: &TcpStream) -> Sender<Due> {
    let to = to.try_clone().expect("an end");
    let (sender, dues) = channel();
    thread::spawn(move || send(dues, to));
    sender
}

/// A number that looks like any other (splitmix64).
fn mixed(number: u64) -> u64 {
    let mut mixed = number.wrapping_add(0x9e37_79b9_7f4a_7c15);
    mixed = (mixed ^ (mixed >> 30)).wrapping_mul(0xbf58_476d_1ce4_e5b9);
    mixed = (mixed ^ (mixed >> 27)).wrapping_mul(0x94d0_49bb_1331_11eb);
    mixed ^ (mixed >> 31)
}

/// What a proxy does to the transmissions of a direction.
#[derive(Clone)]
struct Path {
    framing: Framing,
    held: Duration,
    lose_one_in: u64,
    seed: u64,
    silent_from: PathBuf,
}

impl Path {
    /// Whether the transmission with this number among those of this direction is lost. All
    /// connections of a proxy lose the same calls, since a call reaches all terminals or none.
    fn loses(&self, direction: u64, number: u64, transmission: &[u8]) -> bool {
        let direction = if self.framing.is_call(transmission) {
            0
        } else {
            direction
        };
        let chance = mixed(mixed(mixed(self.seed) ^ direction) ^ number);
        self.lose_one_in != 0 && chance % self.lose_one_in == 0
    }

    /// Hands on what arrives until the connection ends.
    fn hand_on(&self, mut from: TcpStream, to: Sender<Due>, direction: u64) {
        let mut number = 0;
        while let Some(octets) = self.framing.read(&mut from) {
            let lost = self.loses(direction, number, &octets) || self.silent_from.exists();
            number += 1;
            let at = Instant::now() + self.held;
            if !lost && to.send(Due { at, octets }).is_err() {
                break;
            }
        }
    }
}

fn proxy(address: &str, path: &Path) {
    for (terminal, near) in (0..).zip(listener().incoming()) {
        let near = near.expect("a terminal");
        let far = connected(address);
        without_delay(&near);
        for (from, to, direction) in [(&far, &near, 1), (&near, &far, 2)] {
            let (from, to, path) = (from.try_clone().expect("an end"), sends(to), path.clone());
            thread::spawn(move || path.hand_on(from, to, direction + 2 * terminal));
        }
    }
}

/// Hands on each record that arrives to all of these, until the connection ends.
fn share(mut from: TcpStream, to: Vec<Sender<Due>>, held: Duration) {
    while let Some(octets) = Framing::Records.read(&mut from) {
        let at = Instant::now() + held;
        for sender in &to {
            let octets = octets.clone();
            let _ = sender.send(Due { at, octets });
        }
    }
}

fn hub(address: &str, links: usize, terminals: usize, held: Duration, to_all: bool) {
    let listener = listener();
    let mut ends = Vec::new();
    for _ in 0..terminals {
        let end = listener.accept().expect("a terminal").0;
        without_delay(&end);
        ends.push(end);
    }
    ends.extend((0..links).map(|_| connected(address)));
    let senders: Vec<Sender<Due>> = ends.iter().map(sends).collect();
    let shares: Vec<_> = ends
        .into_iter()
        .enumerate()
        .map(|(place, end)| {
            let is_other = |other: usize| {
                let is_across = (place < terminals) != (other < terminals);
                other != place && (to_all || is_across)
            };
            let others = (0..senders.len()).filter(|other| is_other(*other));
            let to = others.map(|other| senders[other].clone()).collect();
            thread::spawn(move || share(end, to, held))
        })
        .collect();
    drop(senders);
    for share in shares {
        share.join().expect("an end");
    }
    // What is still held is sent before the hub ends.
    thread::sleep(held + Duration::from_millis(100));
}

/// Sends these octets again and again, as many at once and as often as this, until the connection
/// ends.
fn repeat(address: &str, octets: &[u8], at_once: usize, every: Duration) {
    let mut to = connected(address);
    for piece in octets.chunks(at_once).cycle() {
        if to.write_all(piece).is_err() {
            return;
        }
        thread::sleep(every);
    }
}

/// Answers the first poll, in raw octets, and goes.
fn leave(address: &str, after: Duration) {
    let mut to = connected(address);
    let mut poll = [0; POLL.len()];
    to.read_exact(&mut poll).expect("a poll");
    assert_eq!(poll, POLL);
    to.write_all(&TEXT).expect("a control station");
    thread::sleep(after);
    to.shutdown(Shutdown::Both).expect("an end");
}

/// Connects and does not read. The system may keep little for it to read.
fn deaf(address: &str) {
    const SOL_SOCKET: i32 = 1;
    const SO_RCVBUF: i32 = 8;
    unsafe extern "C" {
        fn setsockopt(fd: i32, level: i32, name: i32, value: *const i32, length: u32) -> i32;
    }
    let held = connected(address);
    let few = 2048;
    // SAFETY: the value is an integer of four octets, and lives until the call returns.
    let result = unsafe { setsockopt(held.as_raw_fd(), SOL_SOCKET, SO_RCVBUF, &few, 4) };
    assert_eq!(result, 0);
    thread::sleep(LONGEST);
}

/// Connects and closes, as often as this.
fn check(address: &str, every: Duration) {
    loop {
        drop(TcpStream::connect(address));
        thread::sleep(every);
    }
}

fn listener() -> TcpListener {
    let listener = TcpListener::bind("127.0.0.1:0").expect("a listener");
    println!("{}", listener.local_addr().expect("an address"));
    listener
}

fn connected(address: &str) -> TcpStream {
    let stream = TcpStream::connect(address).expect("a station");
    without_delay(&stream);
    stream
}

fn without_delay(stream: &TcpStream) {
    stream.set_nodelay(true).expect("a setting");
}

fn main() {
    thread::spawn(|| {
        thread::sleep(LONGEST);
        std::process::exit(1);
    });
    let words: Vec<String> = std::env::args().skip(1).collect();
    let number = |place: usize| -> u64 { words[place].parse().expect("a number") };
    let time = |place: usize| Duration::from_millis(number(place));
    let address = words[1].as_str();
    match words[0].as_str() {
        "proxy" => {
            let framing = match words[5].as_str() {
                "records" => Framing::Records,
                _ => Framing::Octets,
            };
            let path = Path {
                framing,
                held: time(2),
                lose_one_in: number(3),
                seed: number(4),
                silent_from: PathBuf::from(&words[6]),
            };
            proxy(address, &path);
        }
        "hub" => {
            let (links, terminals) = (number(2) as usize, number(3) as usize);
            hub(address, links, terminals, time(4), words[5] == "all");
        }
        "checks" => check(address, time(2)),
        "trickle" => {
            let mut octets = 2048_u16.to_be_bytes().to_vec();
            octets.resize(2 + 2048, 0x55);
            repeat(address, &octets, 1, time(2));
        }
        "noise" => {
            let octets = [0, 3, 0x16, 0x10, 0x30];
            repeat(address, &octets, octets.len(), time(2));
        }
        "deaf" => deaf(address),
        "leave" => leave(address, time(2)),
        role => panic!("no role {role}"),
    }
}
