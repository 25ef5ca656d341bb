//! The writes and reads of a line that polls terminals which have nothing to send, with no line: what
//! the sockets cost. Words: the number of terminals, and the number of transmissions.

use std::io::{BufWriter, Read, Write};
use std::net::{TcpListener, TcpStream};

fn write(end: &mut TcpStream, octets: &[u8]) {
    let mut record = Vec::with_capacity(2 + octets.len());
    record.extend_from_slice(&(octets.len() as u16).to_be_bytes());
    record.extend_from_slice(octets);
    end.write_all(&record).expect("a write");
}

fn read(end: &mut TcpStream, octets: &mut Vec<u8>) {
    let mut length = [0; 2];
    end.read_exact(&mut length).expect("a length");
    octets.resize(usize::from(u16::from_be_bytes(length)), 0);
    end.read_exact(octets).expect("a record");
}

fn main() {
    let words: Vec<usize> = std::env::args()
        .skip(1)
        .map(|word| word.parse().expect("a number"))
        .collect();
    let (terminals, events) = (words[0], words[1]);
    let listener = TcpListener::bind("127.0.0.1:0").expect("a listener");
    let address = listener.local_addr().expect("an address");
    let (mut near, mut far) = (Vec::new(), Vec::new());
    for _ in 0..terminals {
        let end = TcpStream::connect(address).expect("a connection");
        end.set_nodelay(true).expect("a setting");
        near.push(end);
        let end = listener.accept().expect("a peer").0;
        end.set_nodelay(true).expect("a setting");
        far.push(end);
    }
    let call = [0x16, 0x16, 0x04, 0xff, 0x16, 0x16, 0xd0, 0xb0, 0x85, 0xff];
    let eot = [0x16, 0x16, 0x04, 0xff];
    let mut heard = Vec::new();
    let mut out = BufWriter::new(std::io::stdout().lock());
    for event in 0..events {
        let terminal = event / 2 % terminals;
        if event % 2 == 0 {
            for end in &mut near {
                write(end, &call);
            }
            for end in &mut far {
                read(end, &mut heard);
            }
            writeln!(out, "terminal {terminal} EOT").expect("a line");
        } else {
            write(&mut far[terminal], &eot);
            read(&mut near[terminal], &mut heard);
            writeln!(out, "control CALL P{terminal}").expect("a line");
        }
    }
}
