//! An adapter for the crate `dukpt` of library/rust.
//!
//!     cargo build --release --manifest-path library/rust/Cargo.toml
//!     rustc --edition 2021 -O --extern dukpt=library/rust/target/release/libdukpt.rlib \
//!         -o adapter vectors/adapters/library_rust.rs
//!     cd vectors && python3 -m dukpt_check ../adapter
//!
//! It reads flat objects of JSON: members that are texts or whole numbers. What the library has no
//! call for, as the digest of a walk's keys, is made here.

use dukpt::{Fault, Key, Ksn, TdesKey};
use std::collections::BTreeMap;
use std::convert::TryFrom;
use std::io::{self, BufRead, Write};
use std::iter::Peekable;
use std::str::Chars;

/// Why a case has no outputs.
enum Why {
    Unsupported,
    Refused(String),
}

impl From<Fault> for Why {
    fn from(fault: Fault) -> Self {
        Why::Refused(fault.to_string())
    }
}

fn refused(why: &str) -> Why {
    Why::Refused(why.to_string())
}

// Cases.

/// The members of a case. A number has its digits as text.
struct Case(BTreeMap<String, String>);

impl Case {
    fn text(&self, name: &str) -> Result<&str, Why> {
        let found = self.0.get(name).map(String::as_str);
        found.ok_or_else(|| Why::Refused(format!("{} is missing", name)))
    }

    fn number(&self, name: &str) -> Result<u32, Why> {
        self.text(name)?.parse().map_err(|_| refused("no number of 32 bits"))
    }

    /// Bytes that stand there in hexadecimal.
    fn bytes(&self, name: &str) -> Result<Vec<u8>, Why> {
        let digits: Option<Vec<u32>> = self.text(name)?.chars().map(|it| it.to_digit(16)).collect();
        match digits {
            Some(digits) if digits.len() % 2 == 0 => {
                Ok(digits.chunks(2).map(|pair| (16 * pair[0] + pair[1]) as u8).collect())
            }
            _ => Err(refused("no hexadecimal digits")),
        }
    }

    /// A key, a number or an array: the crate's functions take no other length.
    fn fixed<T: for<'a> TryFrom<&'a [u8]>>(&self, name: &str) -> Result<T, Why> {
        T::try_from(&self.bytes(name)?).map_err(|_| Fault::Length.into())
    }
}

/// Reads a case, if the line is a flat object.
fn read_case(line: &str) -> Option<Case> {
    let mut rest = line.chars().peekable();
    let mut members = BTreeMap::new();
    demand(&mut rest, '{')?;
    loop {
        skip_blanks(&mut rest);
        let name = read_text(&mut rest)?;
        demand(&mut rest, ':')?;
        skip_blanks(&mut rest);
        let value = match rest.peek()? {
            '"' => read_text(&mut rest)?,
            _ => read_digits(&mut rest)?,
        };
        members.insert(name, value);
        skip_blanks(&mut rest);
        match rest.next()? {
            ',' => continue,
            '}' => return Some(Case(members)),
            _ => return None,
        }
    }
}

fn skip_blanks(rest: &mut Peekable<Chars<'_>>) {
    while rest.next_if(|it| it.is_ascii_whitespace()).is_some() {}
}

fn demand(rest: &mut Peekable<Chars<'_>>, wanted: char) -> Option<()> {
    skip_blanks(rest);
    (rest.next()? == wanted).then_some(())
}

fn read_digits(rest: &mut Peekable<Chars<'_>>) -> Option<String> {
    let mut found = String::new();
    while let Some(it) = rest.next_if(|it| it.is_ascii_digit() || "+-.eE".contains(*it)) {
        found.push(it);
    }
    (!found.is_empty()).then_some(found)
}

fn read_text(rest: &mut Peekable<Chars<'_>>) -> Option<String> {
    let mut found = String::new();
    demand(rest, '"')?;
    loop {
        match rest.next()? {
            '"' => return Some(found),
            '\\' => found.push(read_escape(rest)?),
            it => found.push(it),
        }
    }
}

/// The character of what follows a backslash.
fn read_escape(rest: &mut Peekable<Chars<'_>>) -> Option<char> {
    Some(match rest.next()? {
        'b' => '\u{8}',
        'f' => '\u{C}',
        'n' => '\n',
        'r' => '\r',
        't' => '\t',
        'u' => {
            let digits: String = rest.by_ref().take(4).collect();
            char::from_u32(u32::from_str_radix(&digits, 16).ok()?)?
        }
        it => it,
    })
}

// Answers.

/// The members of an answer, as they stand behind its number.
#[derive(Default)]
struct Outputs(String);

type Answer = Result<Outputs, Why>;

fn hexadecimal(bytes: &[u8]) -> String {
    bytes.iter().map(|it| format!("{:02X}", it)).collect()
}

/// A text as JSON has it.
fn quoted(text: &str) -> String {
    let mut made = String::from("\"");
    for it in text.chars() {
        match it {
            '"' | '\\' => made.extend(['\\', it]),
            it if it < ' ' => made += &format!("\\u{:04X}", it as u32),
            it => made.push(it),
        }
    }
    made + "\""
}

impl Outputs {
    fn with(mut self, name: &str, value: &str) -> Self {
        self.0 += &format!(", \"{}\": {}", name, value);
        self
    }

    fn bytes(self, name: &str, bytes: &[u8]) -> Self {
        self.with(name, &format!("\"{}\"", hexadecimal(bytes)))
    }

    fn text(self, name: &str, text: &[u8]) -> Self {
        self.with(name, &quoted(&String::from_utf8_lossy(text)))
    }
}

fn bytes(name: &str, bytes: &[u8]) -> Answer {
    Ok(Outputs::default().bytes(name, bytes))
}

fn text(name: &str, text: &[u8]) -> Answer {
    Ok(Outputs::default().text(name, text))
}

// SHA-256 (FIPS 180-4), for the digest of a walk.

const ROUNDS: [u32; 64] = [
    0x428A2F98, 0x71374491, 0xB5C0FBCF, 0xE9B5DBA5, 0x3956C25B, 0x59F111F1, 0x923F82A4, 0xAB1C5ED5,
    0xD807AA98, 0x12835B01, 0x243185BE, 0x550C7DC3, 0x72BE5D74, 0x80DEB1FE, 0x9BDC06A7, 0xC19BF174,
    0xE49B69C1, 0xEFBE4786, 0x0FC19DC6, 0x240CA1CC, 0x2DE92C6F, 0x4A7484AA, 0x5CB0A9DC, 0x76F988DA,
    0x983E5152, 0xA831C66D, 0xB00327C8, 0xBF597FC7, 0xC6E00BF3, 0xD5A79147, 0x06CA6351, 0x14292967,
    0x27B70A85, 0x2E1B2138, 0x4D2C6DFC, 0x53380D13, 0x650A7354, 0x766A0ABB, 0x81C2C92E, 0x92722C85,
    0xA2BFE8A1, 0xA81A664B, 0xC24B8B70, 0xC76C51A3, 0xD192E819, 0xD6990624, 0xF40E3585, 0x106AA070,
    0x19A4C116, 0x1E376C08, 0x2748774C, 0x34B0BCB5, 0x391C0CB3, 0x4ED8AA4A, 0x5B9CCA4F, 0x682E6FF3,
    0x748F82EE, 0x78A5636F, 0x84C87814, 0x8CC70208, 0x90BEFFFA, 0xA4506CEB, 0xBEF9A3F7, 0xC67178F2,
];

struct Digest {
    state: [u32; 8],
    block: Vec<u8>,
    size: u64,
}

impl Digest {
    fn new() -> Self {
        let state = [
            0x6A09E667, 0xBB67AE85, 0x3C6EF372, 0xA54FF53A, 0x510E527F, 0x9B05688C, 0x1F83D9AB,
            0x5BE0CD19,
        ];
        Digest { state, block: Vec::with_capacity(64), size: 0 }
    }

    fn add(&mut self, data: &[u8]) {
        self.size += data.len() as u64;
        for it in data {
            self.block.push(*it);
            if self.block.len() == 64 {
                self.compress();
                self.block.clear();
            }
        }
    }

    fn compress(&mut self) {
        let mut words: Vec<u32> = Vec::with_capacity(64);
        for it in self.block.chunks(4) {
            words.push(u32::from_be_bytes([it[0], it[1], it[2], it[3]]));
        }
        for at in 16..64 {
            let (a, b) = (words[at - 15], words[at - 2]);
            let one = a.rotate_right(7) ^ a.rotate_right(18) ^ a >> 3;
            let two = b.rotate_right(17) ^ b.rotate_right(19) ^ b >> 10;
            let sum = words[at - 16].wrapping_add(words[at - 7]);
            words.push(sum.wrapping_add(one).wrapping_add(two));
        }
        let [mut a, mut b, mut c, mut d, mut e, mut f, mut g, mut h] = self.state;
        for (word, round) in words.iter().zip(ROUNDS) {
            let one = (e.rotate_right(6) ^ e.rotate_right(11) ^ e.rotate_right(25))
                .wrapping_add((e & f) ^ (!e & g))
                .wrapping_add(h)
                .wrapping_add(round)
                .wrapping_add(*word);
            let two = (a.rotate_right(2) ^ a.rotate_right(13) ^ a.rotate_right(22))
                .wrapping_add((a & b) ^ (a & c) ^ (b & c));
            (h, g, f, e) = (g, f, e, d.wrapping_add(one));
            (d, c, b, a) = (c, b, a, one.wrapping_add(two));
        }
        for (kept, it) in self.state.iter_mut().zip([a, b, c, d, e, f, g, h]) {
            *kept = kept.wrapping_add(it);
        }
    }

    fn value(mut self) -> Vec<u8> {
        let bits = self.size * 8;
        self.add(&[0x80]);
        while self.block.len() != 56 {
            self.add(&[0]);
        }
        self.add(&bits.to_be_bytes());
        self.state.iter().flat_map(|it| it.to_be_bytes()).collect()
    }
}

// Operations.

/// The keys of a number. The library derives that of any counter: a host asks first whether it
/// numbers a transaction.
fn transaction_keys(derive: fn(&Key, &Ksn) -> Key, secret: &Key, ksn: &Ksn) -> Answer {
    dukpt::check_usable(ksn)?;
    keys(&derive(secret, ksn))
}

/// A transaction key, and the keys that are made of it.
fn keys(key: &Key) -> Answer {
    Ok(Outputs::default()
        .bytes("key", key.as_bytes())
        .bytes("pin_key", dukpt::pin_key(key).as_bytes())
        .bytes("request_mac_key", dukpt::request_key(key).as_bytes())
        .bytes("response_mac_key", dukpt::response_key(key).as_bytes()))
}

fn usable(ksn: &Ksn) -> Answer {
    let usable = dukpt::check_usable(ksn).is_ok();
    Ok(Outputs::default().with("usable", if usable { "true" } else { "false" }))
}

/// The registers stand in the image behind its version, the initial key serial number and the
/// counter. One of zeros is empty.
fn registers(initial: &Key, ksn: &Ksn) -> Answer {
    let image = dukpt::registers_at(initial, ksn)?;
    let told: Vec<String> = image[14..350]
        .chunks(16)
        .map(|key| match key.iter().any(|it| *it != 0) {
            true => format!("\"{}\"", hexadecimal(key)),
            false => "null".to_string(),
        })
        .collect();
    Ok(Outputs::default().with("registers", &format!("[{}]", told.join(", "))))
}

/// The keys of a terminal's numbers in their order: those behind the first `skip`.
fn walk(bdk: &Key, iksn: &Ksn, skip: u32, count: u32) -> Answer {
    let initial = dukpt::initial_key(bdk, iksn)?;
    let (mut digest, mut ksn, mut key) = (Digest::new(), *iksn, Key::new([0; 16]));
    for _ in 0..=skip {
        ksn = dukpt::next_number(&ksn)?;
    }
    let mut image = dukpt::registers_at(&initial, &ksn)?;
    for _ in 0..count {
        let taken = dukpt::registers_next(&image)?;
        (image, ksn, key) = (taken.image, taken.ksn, taken.key);
        digest.add(key.as_bytes());
    }
    let outputs = Outputs::default().bytes("sha256", &digest.value());
    Ok(outputs.bytes("last_ksn", ksn.as_bytes()).bytes("last_key", key.as_bytes()))
}

fn encrypt_pin(key: TdesKey<'_>, pin: &str, pan: &str) -> Answer {
    let block = dukpt::pin_block(pin.as_bytes(), pan.as_bytes())?;
    bytes("block", &dukpt::tdes_encrypt(key, &block))
}

fn decrypt_pin(key: TdesKey<'_>, block: &[u8; 8], pan: &str) -> Answer {
    let clear = dukpt::tdes_decrypt(key, block);
    text("pin", &dukpt::pin_of_block(&clear, pan.as_bytes())?)
}

fn wrap(case: &Case, kbpk: TdesKey<'_>, key: TdesKey<'_>) -> Answer {
    let header = <[u8; 7]>::try_from(case.text("header")?.as_bytes()).map_err(|_| Fault::Length)?;
    text("block", &dukpt::wrap(kbpk, &header, key, &case.bytes("padding")?)?)
}

fn unwrap(kbpk: TdesKey<'_>, block: &str) -> Answer {
    let found = dukpt::unwrap(kbpk, block.as_bytes())?;
    Ok(Outputs::default().text("header", &found.header).bytes("key", &found.key))
}

fn payment_request(case: &Case) -> Answer {
    let (pan, pin) = (case.text("pan")?.as_bytes(), case.text("pin")?.as_bytes());
    let (key, ksn) = (case.fixed("key")?, case.fixed("ksn")?);
    bytes("frame", &dukpt::payment_request(&key, &ksn, pan, pin, case.number("amount")?)?)
}

fn read_request(frame: &[u8]) -> Answer {
    let found = dukpt::read_request(frame)?;
    Ok(Outputs::default()
        .bytes("ksn", found.ksn.as_bytes())
        .text("pan", &found.pan)
        .with("amount", &found.amount.to_string())
        .bytes("block", &found.block)
        .bytes("mac", &found.mac))
}

fn reply(case: &Case) -> Answer {
    let code = <[u8; 2]>::try_from(case.text("code")?.as_bytes()).map_err(|_| Fault::Length)?;
    bytes("frame", &dukpt::request_reply(&case.fixed("key")?, &case.fixed("ksn")?, &code)?)
}

fn read_reply(frame: &[u8]) -> Answer {
    let found = dukpt::read_reply(frame)?;
    Ok(Outputs::default().bytes("ksn", found.ksn.as_bytes()).text("code", &found.code))
}

fn read_refusal(frame: &[u8]) -> Answer {
    let found = dukpt::read_refusal(frame)?;
    let outputs = Outputs::default().bytes("ksn", found.ksn.as_bytes());
    Ok(outputs.with("reason", &found.reason.to_string()))
}

/// The transaction key of a reversal's own number, which has to number a transaction.
fn key_under(case: &Case, ksn: &Ksn) -> Result<Key, Why> {
    dukpt::check_usable(ksn)?;
    Ok(dukpt::derive(&case.fixed("bdk")?, ksn))
}

fn reversal(case: &Case) -> Answer {
    let ksn = case.fixed("ksn")?;
    let key = key_under(case, &ksn)?;
    bytes("frame", &dukpt::reversal_request(&key, &ksn, &case.fixed("reversed")?)?)
}

fn read_reversal(frame: &[u8]) -> Answer {
    let found = dukpt::read_reversal(frame)?;
    Ok(Outputs::default()
        .bytes("ksn", found.ksn.as_bytes())
        .bytes("reversed", found.reversed.as_bytes())
        .bytes("mac", &found.mac))
}

fn read_reversal_reply(frame: &[u8]) -> Answer {
    let found = dukpt::read_reversal_reply(frame)?;
    Ok(Outputs::default()
        .bytes("ksn", found.ksn.as_bytes())
        .bytes("reversed", found.reversed.as_bytes())
        .with("state", &(found.state as u32).to_string())
        .bytes("mac", &frame[frame.len() - 8..]))
}

fn check_reversal_reply(case: &Case) -> Answer {
    let (ksn, frame) = (case.fixed("ksn")?, case.bytes("frame")?);
    let key = key_under(case, &ksn)?;
    dukpt::check_reversal_reply(&key, &ksn, &case.fixed("reversed")?, &frame)?;
    let state = dukpt::read_reversal_reply(&frame)?.state;
    Ok(Outputs::default().with("state", &(state as u32).to_string()))
}

/// What is only accepted or refused has no outputs.
fn accepted(_: ()) -> Answer {
    Ok(Outputs::default())
}

/// The operations of ciphers and MACs.
fn cipher(operation: &str, case: &Case) -> Answer {
    let secret = case.bytes("key")?;
    let key = TdesKey::try_from(&secret[..])?;
    match operation {
        "check_value" => bytes("kcv", &dukpt::check_value(key)),
        "cmac_check_value" => bytes("kcv", &dukpt::cmac_check_value(key)),
        "tdes_encrypt" => bytes("block", &dukpt::tdes_encrypt(key, &case.fixed("block")?)),
        "tdes_decrypt" => bytes("block", &dukpt::tdes_decrypt(key, &case.fixed("block")?)),
        "cmac" => bytes("mac", &dukpt::cmac(key, &case.bytes("message")?)),
        "encrypt_pin" => encrypt_pin(key, case.text("pin")?, case.text("pan")?),
        "decrypt_pin" => decrypt_pin(key, &case.fixed("block")?, case.text("pan")?),
        _ => {
            let (iv, mut data) = (case.fixed("iv")?, case.bytes("data")?);
            match operation {
                "cbc_encrypt" => dukpt::cbc_encrypt(key, &iv, &mut data)?,
                _ => dukpt::cbc_decrypt(key, &iv, &mut data)?,
            }
            bytes("data", &data)
        }
    }
}

/// The operations of key blocks.
fn key_block(operation: &str, case: &Case) -> Answer {
    let secret = case.bytes("kbpk")?;
    let kbpk = TdesKey::try_from(&secret[..])?;
    match operation {
        "wrap" => wrap(case, kbpk, TdesKey::try_from(&case.bytes("key")?[..])?),
        _ => unwrap(kbpk, case.text("block")?),
    }
}

/// The operations of frames.
fn frame(operation: &str, case: &Case) -> Answer {
    match operation {
        "payment_request" => payment_request(case),
        "read_request" => read_request(&case.bytes("frame")?),
        "check_request" => {
            accepted(dukpt::check_request(&case.fixed("key")?, &case.bytes("frame")?)?)
        }
        "request_pin" => {
            text("pin", &dukpt::request_pin(&case.fixed("key")?, &case.bytes("frame")?)?)
        }
        "reply" => reply(case),
        "read_reply" => read_reply(&case.bytes("frame")?),
        "check_reply" => {
            let (key, ksn) = (case.fixed("key")?, case.fixed("ksn")?);
            accepted(dukpt::check_reply(&key, &ksn, &case.bytes("frame")?)?)
        }
        "refusal" => {
            bytes("frame", &dukpt::request_refusal(&case.fixed("ksn")?, case.number("reason")?)?)
        }
        "read_refusal" => read_refusal(&case.bytes("frame")?),
        "reversal" => reversal(case),
        "read_reversal" => read_reversal(&case.bytes("frame")?),
        "read_reversal_reply" => read_reversal_reply(&case.bytes("frame")?),
        "check_reversal_reply" => check_reversal_reply(case),
        "frame_length" => {
            let count = dukpt::frame_length(&case.bytes("bytes")?)?;
            Ok(Outputs::default().with("count", &count.to_string()))
        }
        _ => Err(Why::Unsupported),
    }
}

/// The operations of images.
fn image(operation: &str, case: &Case) -> Answer {
    match operation {
        "load" => bytes(
            "image",
            &dukpt::registers_load(&case.fixed("initial_key")?, &case.fixed("iksn")?)?,
        ),
        "image_at" => {
            bytes("image", &dukpt::registers_at(&case.fixed("initial_key")?, &case.fixed("ksn")?)?)
        }
        "number" => bytes("ksn", dukpt::registers_number(&case.bytes("image")?)?.as_bytes()),
        "take" => {
            let found = dukpt::registers_next(&case.bytes("image")?)?;
            let outputs = Outputs::default().bytes("image", &found.image);
            Ok(outputs.bytes("key", found.key.as_bytes()).bytes("ksn", found.ksn.as_bytes()))
        }
        _ => {
            let (initial, iksn) = (case.fixed("initial_key")?, case.fixed("iksn")?);
            bytes("image", &dukpt::registers_reload(&case.bytes("image")?, &initial, &iksn)?)
        }
    }
}

/// The outputs of a case.
fn outputs(case: &Case) -> Answer {
    let operation = case.text("operation")?;
    match operation {
        "initial_key" => {
            bytes("key", dukpt::initial_key(&case.fixed("bdk")?, &case.fixed("iksn")?)?.as_bytes())
        }
        "derive" => transaction_keys(dukpt::derive, &case.fixed("bdk")?, &case.fixed("ksn")?),
        "derive_from_initial" => {
            let (initial, ksn) = (case.fixed("initial_key")?, case.fixed("ksn")?);
            transaction_keys(dukpt::derive_from_initial, &initial, &ksn)
        }
        "usable" => usable(&case.fixed("ksn")?),
        "next_number" => bytes("ksn", dukpt::next_number(&case.fixed("ksn")?)?.as_bytes()),
        "registers" => registers(&case.fixed("initial_key")?, &case.fixed("ksn")?),
        "walk" => {
            let (skip, count) = (case.number("skip")?, case.number("count")?);
            walk(&case.fixed("bdk")?, &case.fixed("iksn")?, skip, count)
        }
        "check_value" | "cmac_check_value" | "tdes_encrypt" | "tdes_decrypt" | "cbc_encrypt"
        | "cbc_decrypt" | "cmac" | "encrypt_pin" | "decrypt_pin" => cipher(operation, case),
        "retail_mac" => {
            bytes("mac", &dukpt::retail_mac(&case.fixed("key")?, &case.bytes("message")?)?)
        }
        "pin_block" => {
            let (pin, pan) = (case.text("pin")?.as_bytes(), case.text("pan")?.as_bytes());
            bytes("block", &dukpt::pin_block(pin, pan)?)
        }
        "pin_of_block" => {
            let pan = case.text("pan")?.as_bytes();
            text("pin", &dukpt::pin_of_block(&case.fixed("block")?, pan)?)
        }
        "wrap" | "unwrap" => key_block(operation, case),
        "load" | "image_at" | "number" | "take" | "reload" => image(operation, case),
        _ => frame(operation, case),
    }
}

/// The answer to a line.
fn answer(line: &str) -> String {
    let case = match read_case(line) {
        Some(case) => case,
        None => return "{\"error\": \"the line is no flat object\"}".to_string(),
    };
    let number = case.text("tcId").unwrap_or("null");
    match outputs(&case) {
        Ok(found) => format!("{{\"tcId\": {}{}}}", number, found.0),
        Err(Why::Unsupported) => format!("{{\"tcId\": {}, \"unsupported\": true}}", number),
        Err(Why::Refused(why)) => {
            format!("{{\"tcId\": {}, \"error\": {}}}", number, quoted(&why))
        }
    }
}

fn main() -> io::Result<()> {
    for line in io::stdin().lock().lines() {
        let mut output = io::stdout();
        writeln!(output, "{}", answer(&line?))?;
        output.flush()?;
    }
    Ok(())
}
