//! Cases of each call out of a file, which `tests/library/test_library_rust.py` writes.
//!
//! A line is a call, its status, what it takes, `=`, and what it gives; bytes are in hexadecimal,
//! `-` is none, and a number is four bytes.

use dukpt::*;
use std::{env, fs};

/// What a call gives, part by part.
type Answer = Result<Vec<Vec<u8>>, Fault>;

/// Bytes as an array. Other lengths cannot be given to a call whose length is fixed: here they are
/// refused in its place, with the first of its faults.
fn fixed<const N: usize>(bytes: &[u8]) -> Result<&[u8; N], Fault> {
    bytes.try_into().map_err(|_| Fault::Length)
}

fn key_in(bytes: &[u8]) -> Result<Key, Fault> {
    Key::try_from(bytes)
}

fn ksn_in(bytes: &[u8]) -> Result<Ksn, Fault> {
    Ksn::try_from(bytes)
}

fn number_in(bytes: &[u8]) -> Result<u32, Fault> {
    fixed(bytes).map(|bytes| u32::from_be_bytes(*bytes))
}

fn one(bytes: &[u8]) -> Vec<Vec<u8>> {
    vec![bytes.to_vec()]
}

fn of_ksn(ksn: Ksn) -> Vec<Vec<u8>> {
    one(ksn.as_bytes())
}

fn keys(name: &str, given: &[Vec<u8>]) -> Answer {
    let key = key_in(&given[0])?;
    let made = match name {
        "initial_key" => initial_key(&key, &ksn_in(&given[1])?)?,
        "derive" => derive(&key, &ksn_in(&given[1])?),
        "derive_from_initial" => derive_from_initial(&key, &ksn_in(&given[1])?),
        "pin_key" => pin_key(&key),
        "request_key" => request_key(&key),
        "response_key" => response_key(&key),
        "request_data_key" => request_data_key(&key),
        _ => response_data_key(&key),
    };
    Ok(one(made.as_bytes()))
}

/// Bytes in parts of one size. Others cannot be given to a call over a list, and are refused in its
/// place.
fn parts(bytes: &[u8], size: usize) -> Result<Vec<&[u8]>, Fault> {
    if bytes.len() % size == 0 {
        Ok(bytes.chunks(size).collect())
    } else {
        Err(Fault::Length)
    }
}

fn many(name: &str, given: &[Vec<u8>]) -> Answer {
    let bdk = key_in(&given[0])?;
    if name == "derive_many" {
        let ksns = parts(&given[1], 10)?.into_iter().map(ksn_in).collect::<Result<Vec<_>, _>>()?;
        let mut keys = vec![Key::new([0; 16]); ksns.len()];
        derive_many(&bdk, &ksns, &mut keys)?;
        return Ok(one(&keys.iter().flat_map(|key| *key.as_bytes()).collect::<Vec<_>>()));
    }
    let frames: Vec<_> = parts(&given[1], 64)?.into_iter().map(front_frame).collect();
    let mut results = vec![Ok(()); frames.len()];
    check_requests(&bdk, &frames, &mut results)?;
    let number = |result: Result<(), Fault>| result.err().map_or(0, |fault| fault.number() as u8);
    Ok(one(&results.into_iter().map(number).collect::<Vec<_>>()))
}

/// The frame at the begin of 64 bytes, or all of them where it would be longer.
fn front_frame(place: &[u8]) -> &[u8] {
    let end = 2 + usize::from(u16::from_be_bytes([place[0], place[1]]));
    place.get(..end).unwrap_or(place)
}

fn ciphers(name: &str, given: &[Vec<u8>]) -> Answer {
    let key = TdesKey::try_from(&given[0][..])?;
    let mut bytes = given.last().cloned().unwrap_or_default();
    match name {
        "check_value" => return Ok(one(&check_value(key))),
        "cmac_check_value" => return Ok(one(&cmac_check_value(key))),
        "cmac" => return Ok(one(&cmac(key, &given[1]))),
        "tdes_encrypt" => return Ok(one(&tdes_encrypt(key, fixed(&given[1])?))),
        "tdes_decrypt" => return Ok(one(&tdes_decrypt(key, fixed(&given[1])?))),
        "cbc_encrypt" => cbc_encrypt(key, fixed(&given[1])?, &mut bytes)?,
        _ => cbc_decrypt(key, fixed(&given[1])?, &mut bytes)?,
    }
    Ok(vec![bytes])
}

fn registers(name: &str, given: &[Vec<u8>]) -> Answer {
    Ok(match name {
        "registers_load" => one(&registers_load(&key_in(&given[0])?, &ksn_in(&given[1])?)?),
        "registers_at" => one(&registers_at(&key_in(&given[0])?, &ksn_in(&given[1])?)?),
        "registers_number" => of_ksn(registers_number(&given[0])?),
        "registers_next" => {
            let taken = registers_next(&given[0])?;
            let (key, ksn) = (taken.key.as_bytes(), taken.ksn.as_bytes());
            vec![taken.image.to_vec(), key.to_vec(), ksn.to_vec()]
        }
        _ => one(&registers_reload(&given[0], &key_in(&given[1])?, &ksn_in(&given[2])?)?),
    })
}

fn pins(name: &str, given: &[Vec<u8>]) -> Answer {
    Ok(match name {
        "pin_block" => one(&pin_block(&given[0], &given[1])?),
        _ => one(&pin_of_block(fixed(&given[0])?, &given[1])?),
    })
}

fn blocks(name: &str, given: &[Vec<u8>]) -> Answer {
    let kbpk = TdesKey::try_from(&given[0][..])?;
    Ok(match name {
        "wrap" => {
            let key = TdesKey::try_from(&given[2][..])?;
            one(&wrap(kbpk, fixed(&given[1])?, key, &given[3])?)
        }
        "wrap_with" => {
            let key = TdesKey::try_from(&given[3][..])?;
            one(&wrap_with(kbpk, fixed(&given[1])?, &given[2], key, &given[4])?)
        }
        "unwrap_optional" => one(&unwrap_optional(kbpk, &given[1], fixed(&given[2])?)?),
        "unwrap_for" => {
            let (usage, text) = (fixed(&given[1])?, &given[3]);
            match number_in(&given[2])? {
                16 => one(unwrap_for::<16>(kbpk, usage, text)?.as_bytes()),
                24 => one(unwrap_for::<24>(kbpk, usage, text)?.as_bytes()),
                _ => one(unwrap_for::<8>(kbpk, usage, text)?.as_bytes()),
            }
        }
        _ => {
            let block = unwrap(kbpk, &given[1])?;
            vec![block.header.to_vec(), block.key.to_vec()]
        }
    })
}

fn requests(name: &str, given: &[Vec<u8>]) -> Answer {
    match name {
        "payment_request" => {
            let (key, ksn) = (key_in(&given[0])?, ksn_in(&given[1])?);
            let amount = number_in(&given[4])?;
            payment_request(&key, &ksn, &given[2], &given[3], amount).map(|frame| one(&frame))
        }
        "read_request" => read_request(&given[0]).map(|it| {
            let (ksn, amount) = (it.ksn.as_bytes(), it.amount.to_be_bytes());
            [&ksn[..], &it.pan, &amount, &it.block, &it.mac].map(<[u8]>::to_vec).to_vec()
        }),
        "check_request" => check_request(&key_in(&given[0])?, &given[1]).map(|()| vec![]),
        _ => request_pin(&key_in(&given[0])?, &given[1]).map(|pin| one(&pin)),
    }
}

fn replies(name: &str, given: &[Vec<u8>]) -> Answer {
    Ok(match name {
        "request_reply" => {
            one(&request_reply(&key_in(&given[0])?, &ksn_in(&given[1])?, fixed(&given[2])?)?)
        }
        "request_refusal" => one(&request_refusal(&ksn_in(&given[0])?, number_in(&given[1])?)?),
        "read_reply" => {
            let found = read_reply(&given[0])?;
            vec![found.ksn.as_bytes().to_vec(), found.code.to_vec()]
        }
        "read_refusal" => {
            let found = read_refusal(&given[0])?;
            vec![found.ksn.as_bytes().to_vec(), found.reason.to_be_bytes().to_vec()]
        }
        _ => check_reply(&key_in(&given[0])?, &ksn_in(&given[1])?, &given[2]).map(|()| vec![])?,
    })
}

fn reversals(name: &str, given: &[Vec<u8>]) -> Answer {
    Ok(match name {
        "read_reversal" => {
            let found = read_reversal(&given[0])?;
            let (ksn, reversed) = (found.ksn.as_bytes(), found.reversed.as_bytes());
            vec![ksn.to_vec(), reversed.to_vec(), found.mac.to_vec()]
        }
        "check_reversal" => check_reversal(&key_in(&given[0])?, &given[1]).map(|()| vec![])?,
        "read_reversal_reply" => {
            let found = read_reversal_reply(&given[0])?;
            let (ksn, reversed) = (found.ksn.as_bytes(), found.reversed.as_bytes());
            vec![ksn.to_vec(), reversed.to_vec(), (found.state as u32).to_be_bytes().to_vec()]
        }
        _ => {
            let (key, ksn) = (key_in(&given[0])?, ksn_in(&given[1])?);
            let reversed = ksn_in(&given[2])?;
            match name {
                "reversal_request" => one(&reversal_request(&key, &ksn, &reversed)?),
                "reversal_reply" => one(&replied(&key, &ksn, &reversed, number_in(&given[3])?)?),
                _ => check_reversal_reply(&key, &ksn, &reversed, &given[3]).map(|()| vec![])?,
            }
        }
    })
}

/// The reply to a reversal with a state that may be none: that cannot be given to the call, and is
/// refused in its place behind its other faults.
fn replied(key: &Key, ksn: &Ksn, reversed: &Ksn, state: u32) -> Result<Frame, Fault> {
    let other = reversal_reply(key, ksn, reversed, ReversalState::Undone)?;
    match ReversalState::try_from(state)? {
        ReversalState::Undone => Ok(other),
        state => reversal_reply(key, ksn, reversed, state),
    }
}

fn answer(name: &str, given: &[Vec<u8>]) -> Answer {
    match name {
        "initial_key"
        | "derive"
        | "derive_from_initial"
        | "pin_key"
        | "request_key"
        | "response_key"
        | "request_data_key"
        | "response_data_key" => keys(name, given),
        "derive_many" | "check_requests" => many(name, given),
        "check_usable" => check_usable(&ksn_in(&given[0])?).map(|()| vec![]),
        "next_number" => next_number(&ksn_in(&given[0])?).map(of_ksn),
        "check_value" | "cmac_check_value" | "cmac" | "tdes_encrypt" | "tdes_decrypt"
        | "cbc_encrypt" | "cbc_decrypt" => ciphers(name, given),
        "retail_mac" => retail_mac(&key_in(&given[0])?, &given[1]).map(|mac| one(&mac)),
        "registers_load" | "registers_at" | "registers_number" | "registers_next"
        | "registers_reload" => registers(name, given),
        "pin_block" | "pin_of_block" => pins(name, given),
        "wrap" | "wrap_with" | "unwrap" | "unwrap_for" | "unwrap_optional" => blocks(name, given),
        "payment_request" | "read_request" | "check_request" | "request_pin" => {
            requests(name, given)
        }
        "request_reply" | "request_refusal" | "read_reply" | "read_refusal" | "check_reply" => {
            replies(name, given)
        }
        "reversal_request"
        | "read_reversal"
        | "check_reversal"
        | "reversal_reply"
        | "read_reversal_reply"
        | "check_reversal_reply" => reversals(name, given),
        "frame_length" => frame_length(&given[0]).map(|count| one(&(count as u32).to_be_bytes())),
        _ => panic!("{} is no call", name),
    }
}

fn read(word: &str) -> Vec<u8> {
    let digits = word.trim_start_matches('-').as_bytes();
    let digit = |at: usize| (digits[at] as char).to_digit(16).expect("hexadecimal") as u8;
    (0..digits.len() / 2).map(|at| 16 * digit(2 * at) + digit(2 * at + 1)).collect()
}

fn try_line(line: &str) {
    let mut words = line.split(' ');
    let name = words.next().expect("a call");
    let status: u32 = words.next().expect("a status").parse().expect("a number");
    let given: Vec<Vec<u8>> = words.by_ref().take_while(|word| *word != "=").map(read).collect();
    let wanted: Vec<Vec<u8>> = words.map(read).collect();
    let found = answer(name, &given);
    match found {
        Ok(found) => assert_eq!((0, found), (status, wanted), "{}", line),
        Err(fault) => assert_eq!(fault.number(), status, "{}", line),
    }
}

#[test]
#[ignore = "the cases come of tests/library/test_library_rust.py"]
fn cases() {
    let path = env::var("DUKPT_CASES").expect("DUKPT_CASES names a file of cases");
    let lines = fs::read_to_string(path).expect("a file of cases");
    lines.lines().for_each(try_line);
    println!("{} cases", lines.lines().count());
}
