//! Prints the first transaction key of the standard's samples.

use dukpt::{Key, Ksn};

fn main() {
    let bdk = Key::new(*b"\x01\x23\x45\x67\x89\xAB\xCD\xEF\xFE\xDC\xBA\x98\x76\x54\x32\x10");
    let ksn = Ksn::new(*b"\xFF\xFF\x98\x76\x54\x32\x10\xE0\x00\x01");
    for byte in dukpt::derive(&bdk, &ksn).as_bytes() {
        print!("{:02X}", byte);
    }
    println!();
}
