//! A key block (TR-31): a facility wraps a terminal's initial key, and the terminal unwraps it.

use dukpt::Key;
use std::error::Error;
use std::fs::File;
use std::io::{self, Read};

const LOADING: Key = Key::new(*b"\x4C\xF1\x51\x34\xA2\x85\x0D\xD5\x8A\x3D\x10\xBA\x80\x57\x0D\x38");
const INITIAL: Key = Key::new(*b"\x6A\xC2\x92\xFA\xA1\x31\x5B\x4D\x85\x8A\xB3\xA3\xD7\xD5\x93\x3A");
// An initial key for TDES, from which others are derived, and which is not exported.
const HEADER: &[u8; 7] = b"B1TX00N";

/// Bytes at random. The library has no source of random numbers.
fn random_bytes() -> io::Result<[u8; 6]> {
    let mut bytes = [0; 6];
    File::open("/dev/urandom")?.read_exact(&mut bytes)?;
    Ok(bytes)
}

fn main() -> Result<(), Box<dyn Error>> {
    // Two bytes of length, the key and six bytes of padding are whole blocks of 8.
    let text = dukpt::wrap(&LOADING, HEADER, &INITIAL, &random_bytes()?)?;
    println!("block {}", String::from_utf8_lossy(&text));

    let key: Key = dukpt::unwrap_for(&LOADING, b"B1", &text)?;
    let digits: String = key
        .as_bytes()
        .iter()
        .map(|byte| format!("{:02X}", byte))
        .collect();
    println!("key {}", digits);

    // A key for PINs has another usage.
    if let Err(fault) = dukpt::unwrap_for::<16>(&LOADING, b"P0", &text) {
        println!("other {:?}", fault);
    }
    // Of a block that another one made, the MAC is wrong.
    let mut forged = text.to_vec();
    if let Some(last) = forged.last_mut() {
        *last = if *last == b'0' { b'1' } else { b'0' };
    }
    if let Err(fault) = dukpt::unwrap_for::<16>(&LOADING, b"B1", &forged) {
        println!("forged {:?}", fault);
    }
    Ok(())
}
