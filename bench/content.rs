//! `bsc.h` in Rust: the numbers of the kinds, the storage of a message's content, and the two calls of
//! `bsc_embed`.

pub mod kind {
    pub const NOISE: u32 = 0;
    pub const FAILED: u32 = 1;
    pub const EOT: u32 = 2;
    pub const CALL: u32 = 3;
    pub const ENQ: u32 = 4;
    pub const ACK0: u32 = 5;
    pub const ACK1: u32 = 6;
    pub const NAK: u32 = 7;
    pub const WACK: u32 = 8;
    pub const RVI: u32 = 9;
    pub const TEXT: u32 = 10;
}

#[repr(C)]
#[derive(Clone, Copy, Debug, PartialEq)]
pub struct StoredUnit {
    pub chars: [u8; 144],
    pub len: u8,
    pub em: u8,
}

#[repr(C)]
#[derive(Clone, Copy, Debug, PartialEq)]
pub struct Content {
    pub units: [StoredUnit; 7],
    pub count: u8,
    pub end: u8,
    pub address: [u8; 7],
    pub address_len: u8,
}

impl Content {
    /// Every octet of it is this one.
    pub const fn of(octet: u8) -> Content {
        Content {
            units: [StoredUnit {
                chars: [octet; 144],
                len: octet,
                em: octet,
            }; 7],
            count: octet,
            end: octet,
            address: [octet; 7],
            address_len: octet,
        }
    }
}

unsafe extern "C" {
    pub fn bsc_decode(octets: *const u8, len: usize, content: &mut Content) -> u32;
    pub fn bsc_encode(kind: u32, content: &Content, octets: *mut u8, len: usize) -> usize;
}
