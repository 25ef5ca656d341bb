//! Whether the proved crates and plain Rust answer alike.

use crate::content::{Content, bsc_decode, bsc_encode, kind};
use crate::inputs::{self, Random};
use crate::plain_calls::{plain_decode, plain_encode};

const DECODED: usize = 40_000;
const ENCODED: usize = 20_000;

const KINDS: [&str; 11] = [
    "noise", "failed", "eot", "call", "enq", "ack0", "ack1", "nak", "wack", "rvi", "text",
];

/// Compares both on random and on spoiled transmissions and contents, and prints how many there were.
pub fn all() -> Result<(), String> {
    let mut random = Random::new(1);
    let mut counts = [0usize; KINDS.len()];
    for _ in 0..DECODED {
        counts[decoded(&inputs::any(&mut random))? as usize] += 1;
    }
    let kinds: Vec<String> = KINDS
        .iter()
        .zip(counts)
        .map(|(name, count)| format!("{name} {count}"))
        .collect();
    println!(
        "{DECODED} transmissions decoded alike: {}",
        kinds.join(", ")
    );
    let mut refused = 0;
    for _ in 0..ENCODED {
        let (kind, content) = inputs::any_content(&mut random);
        if encoded(kind, &content)? == 0 {
            refused += 1;
        }
    }
    println!("{ENCODED} contents encoded alike, {refused} of them no message");
    Ok(())
}

/// What was decoded.
#[derive(Debug, PartialEq)]
enum Said<'a> {
    /// The octets of the content are still those from before.
    Nothing(&'a Content),
    Address(&'a [u8]),
    Text {
        units: Vec<(&'a [u8], bool)>,
        end: u8,
    },
}

fn said(kind: u32, content: &Content) -> Said<'_> {
    match kind {
        kind::CALL => Said::Address(&content.address[..content.address_len as usize]),
        kind::TEXT => {
            let units = content.units[..content.count as usize].iter();
            Said::Text {
                units: units
                    .map(|unit| (&unit.chars[..unit.len as usize], unit.em != 0))
                    .collect(),
                end: content.end,
            }
        }
        _ => Said::Nothing(content),
    }
}

fn decoded(octets: &[u8]) -> Result<u32, String> {
    let mut proved = Content::of(0xee);
    let mut plain = Content::of(0xee);
    // SAFETY: a slice's own address and length.
    let kind = unsafe { bsc_decode(octets.as_ptr(), octets.len(), &mut proved) };
    let plain_kind = plain_decode(octets.as_ptr(), octets.len(), &mut plain);
    if kind != plain_kind || said(kind, &proved) != said(kind, &plain) {
        return Err(format!(
            "{octets:02x?} decoded as {kind}, {:02x?}, and by plain Rust as {plain_kind}, {:02x?}",
            said(kind, &proved),
            said(plain_kind, &plain)
        ));
    }
    Ok(kind)
}

fn encoded(kind: u32, content: &Content) -> Result<usize, String> {
    let mut proved = [0u8; 1100];
    let mut plain = [0u8; 1100];
    // SAFETY: an array's own address and length.
    let len = unsafe { bsc_encode(kind, content, proved.as_mut_ptr(), proved.len()) };
    let plain_len = plain_encode(kind, content, plain.as_mut_ptr(), plain.len());
    if len != plain_len || proved != plain {
        return Err(format!(
            "kind {kind} encoded as {:02x?}, and by plain Rust as {:02x?}",
            &proved[..len],
            &plain[..plain_len]
        ));
    }
    Ok(len)
}
