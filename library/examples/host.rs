//! A host's answer: host FRAME [STANDS..]
//!
//! FRAME is a request or a reversal in hexadecimal. STANDS are the key serial numbers of approved
//! payments, in the place of a host's journal: a reversal of one of them undoes it. A real host
//! derives keys in its security module, and also refuses the numbers that were used before.

use dukpt::{Fault, Frame, Key, Ksn, ReversalState};
use std::process::exit;

const BDK: Key = Key::new(*b"\x01\x23\x45\x67\x89\xAB\xCD\xEF\xFE\xDC\xBA\x98\x76\x54\x32\x10");
const NO_KSN: Ksn = Ksn::new([0; 10]);
const MALFORMED: u32 = 1;
const BAD_COUNTER: u32 = 3;
const BAD_MAC: u32 = 4;
const USAGE: &str = "usage: host FRAME [STANDS..]";

fn digits(bytes: &[u8]) -> String {
    bytes.iter().map(|byte| format!("{:02X}", byte)).collect()
}

/// The bytes of a text in hexadecimal, if it is that.
fn read_hexadecimal(text: &str) -> Option<Vec<u8>> {
    let nibbles: Vec<u32> = text
        .chars()
        .map(|it| it.to_digit(16))
        .collect::<Option<_>>()?;
    let pairs = nibbles.chunks_exact(2);
    let is_whole = pairs.remainder().is_empty();
    is_whole.then(|| pairs.map(|pair| (16 * pair[0] + pair[1]) as u8).collect())
}

fn read_number(text: String) -> Option<Ksn> {
    Ksn::try_from(&read_hexadecimal(&text)?[..]).ok()
}

/// Shows the PIN of a request, where its block holds one. Gives the code of the reply.
fn decide(key: &Key, frame: &[u8]) -> &'static [u8; 2] {
    match dukpt::request_pin(key, frame) {
        Ok(pin) => {
            println!("pin {}", String::from_utf8_lossy(&pin));
            b"00"
        }
        Err(_) => b"30",
    }
}

/// The answer to a frame: a reply or a refusal.
fn judge(frame: &[u8], stands: &[Ksn]) -> Result<Frame, Fault> {
    if let Ok(request) = dukpt::read_request(frame) {
        return match key_for(&request.ksn, |key| dukpt::check_request(key, frame)) {
            Ok(key) => {
                println!("number {}", request.ksn);
                println!("pan {}", String::from_utf8_lossy(&request.pan));
                println!("amount {}", request.amount);
                dukpt::request_reply(&key, &request.ksn, decide(&key, frame))
            }
            Err(reason) => dukpt::request_refusal(&request.ksn, reason),
        };
    }
    if let Ok(reversal) = dukpt::read_reversal(frame) {
        return match key_for(&reversal.ksn, |key| dukpt::check_reversal(key, frame)) {
            Ok(key) => {
                println!("number {}", reversal.ksn);
                println!("reversed {}", reversal.reversed);
                let state = match stands.contains(&reversal.reversed) {
                    true => ReversalState::Undone,
                    false => ReversalState::NoneStands,
                };
                dukpt::reversal_reply(&key, &reversal.ksn, &reversal.reversed, state)
            }
            Err(reason) => dukpt::request_refusal(&reversal.ksn, reason),
        };
    }
    dukpt::request_refusal(&NO_KSN, MALFORMED)
}

/// The transaction key of a number with which the check of its frame passes, or the reason of a
/// refusal.
fn key_for(ksn: &Ksn, check: impl FnOnce(&Key) -> Result<(), Fault>) -> Result<Key, u32> {
    dukpt::check_usable(ksn).map_err(|_| BAD_COUNTER)?;
    let key = dukpt::derive(&BDK, ksn);
    check(&key).map_err(|_| BAD_MAC)?;
    Ok(key)
}

/// The frame, and the payments that stand, where the words are right.
fn words() -> Option<(Vec<u8>, Vec<Ksn>)> {
    let mut words = std::env::args().skip(1);
    let frame = read_hexadecimal(&words.next()?).unwrap_or_default();
    Some((frame, words.map(read_number).collect::<Option<_>>()?))
}

fn main() -> Result<(), Fault> {
    let (frame, stands) = words().unwrap_or_else(|| {
        eprintln!("{}", USAGE);
        exit(1)
    });
    let answer = judge(&frame, &stands)?;
    let kind = if answer[3] == 3 { "refusal" } else { "reply" };
    println!("{} {}", kind, digits(&answer));
    Ok(())
}
