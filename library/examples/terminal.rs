//! A terminal over stored files: terminal IMAGE [AMOUNT..]
//!
//! Each AMOUNT is a purchase. Frames go out on standard output, answers come in on standard input,
//! and lines go to standard error. Without an AMOUNT the terminal only comes to rest.
//!
//! Beside the image of the registers stand the last purchase, in IMAGE.book, and a lock. It is held
//! from reading both files to storing them: of two terminals over one image each number is used by
//! one. A number leaves the image before its key is used, and a purchase is open in the book before
//! its request goes out: one without an answer is reversed at the next start.
//!
//! An image has one name. Under a second one its numbers would come again: a link is refused.

use dukpt::{Fault, Key, Ksn, ReversalState, Terminal, Transaction};
use std::error::Error;
use std::ffi::OsString;
use std::fmt;
use std::fs::{self, File, OpenOptions};
use std::io::{self, ErrorKind, Read, Write};
use std::os::unix::fs::{MetadataExt, OpenOptionsExt};
use std::os::unix::io::{AsFd, AsRawFd};
use std::path::{Path, PathBuf};
use std::process::ExitCode;

// The facility gives them to the terminal, in a key block: see key_block.rs.
const INITIAL: Key = Key::new(*b"\x6A\xC2\x92\xFA\xA1\x31\x5B\x4D\x85\x8A\xB3\xA3\xD7\xD5\x93\x3A");
const IKSN: Ksn = Ksn::new(*b"\xFF\xFF\x98\x76\x54\x32\x10\xE0\x00\x00");
const PAN: &[u8] = b"4012345678909";
const PIN: &[u8] = b"1234";
const USAGE: &str = "usage: terminal IMAGE [AMOUNT..]";

/// What is done, or why the terminal stops.
type Outcome<T> = Result<T, Box<dyn Error>>;

/// The last purchase of a terminal.
#[derive(Clone, Copy, PartialEq)]
enum Purchase {
    /// Its request may have gone out, and nothing is known of it.
    Open {
        ksn: Ksn,
        amount: u32,
    },
    Approved {
        ksn: Ksn,
        amount: u32,
    },
    Declined {
        ksn: Ksn,
        code: u8,
    },
    Undone {
        ksn: Ksn,
    },
}

use Purchase::{Approved, Declined, Open, Undone};

impl Purchase {
    /// Its bytes in the book: 81, its state, the number, the amount and the code.
    fn to_bytes(self) -> [u8; 17] {
        let (state, ksn, amount, code) = match self {
            Open { ksn, amount } => (1, ksn, amount, 0),
            Approved { ksn, amount } => (2, ksn, amount, 0),
            Declined { ksn, code } => (3, ksn, 0, code),
            Undone { ksn } => (4, ksn, 0, 0),
        };
        let mut bytes = [0; 17];
        bytes[..2].copy_from_slice(&[0x81, state]);
        bytes[2..12].copy_from_slice(ksn.as_bytes());
        bytes[12..16].copy_from_slice(&amount.to_be_bytes());
        bytes[16] = code;
        bytes
    }

    /// The purchase with these bytes, if there is one.
    fn of_bytes(bytes: &[u8]) -> Option<Self> {
        let ksn = Ksn::try_from(bytes.get(2..12)?).ok()?;
        dukpt::check_usable(&ksn).ok()?;
        let amount = u32::from_be_bytes(bytes.get(12..16)?.try_into().ok()?);
        let code = *bytes.get(16)?;
        let found = match bytes[1] {
            1 => Open { ksn, amount },
            2 => Approved { ksn, amount },
            3 if matches!(code, 14 | 30 | 51 | 55) => Declined { ksn, code },
            4 => Undone { ksn },
            _ => return None,
        };
        (found.to_bytes() == bytes).then_some(found)
    }
}

impl fmt::Display for Purchase {
    fn fmt(&self, f: &mut fmt::Formatter<'_>) -> fmt::Result {
        match self {
            Open { ksn, amount } => write!(f, "open {} {}", ksn, amount),
            Approved { ksn, amount } => write!(f, "approved {} {}", ksn, amount),
            Declined { ksn, code } => write!(f, "declined {} {:02}", ksn, code),
            Undone { ksn } => write!(f, "undone {}", ksn),
        }
    }
}

/// The files of a terminal. While there is such a value, no other one has them.
struct Files {
    image: PathBuf,
    book: PathBuf,
    _lock: File,
}

impl Files {
    /// Waits until no other terminal has them. The lock goes with its open file.
    fn locked(image: &Path) -> io::Result<Self> {
        let lock = private(OpenOptions::new().create(true).write(true))
            .open(with_ending(image, ".lock"))?;
        lock_whole(&lock)?;
        Ok(Files {
            image: image.into(),
            book: with_ending(image, ".book"),
            _lock: lock,
        })
    }

    fn last_purchase(&self) -> Outcome<Option<Purchase>> {
        let bytes = match fs::read(&self.book) {
            Err(why) if why.kind() == ErrorKind::NotFound => return Ok(None),
            bytes => bytes?,
        };
        let found = Purchase::of_bytes(&bytes);
        found
            .map(Some)
            .ok_or_else(|| format!("{}: damaged", self.book.display()).into())
    }

    /// The terminal that was stored, or one that is loaded where nothing was.
    fn terminal(&self, has_book: bool) -> Outcome<Terminal> {
        match fs::read(&self.image) {
            Ok(bytes) => Ok(Terminal::from_image(&bytes)?),
            Err(why) if why.kind() == ErrorKind::NotFound && !has_book => {
                let terminal = Terminal::load(&INITIAL, &IKSN)?;
                store(&self.image, terminal.image())?;
                say(&format!("loaded {}", IKSN));
                Ok(terminal)
            }
            Err(why) => Err(format!("{}: {}", self.image.display(), why).into()),
        }
    }

    /// Uses the next number of the terminal, once the image without it is stored.
    fn take(&self, terminal: &mut Terminal) -> Outcome<Transaction> {
        Ok(terminal.take(|image| store(&self.image, image))?)
    }

    fn keep(&self, purchase: Purchase) -> io::Result<()> {
        store(&self.book, &purchase.to_bytes())
    }
}

/// The one path of an image: its folder is resolved, and a link is refused. Under a second path it
/// would have another lock and another book.
fn only_path(word: &Path) -> Outcome<PathBuf> {
    const TEXT: &str = "an image is a file with one name, and no link";
    let described = |why: &dyn fmt::Display| format!("{}: {}", word.display(), why);
    let name = word.file_name().ok_or_else(|| described(&TEXT))?;
    let folder = fs::canonicalize(folder_of(word)).map_err(|why| described(&why))?;
    let path = folder.join(name);
    match fs::symlink_metadata(&path) {
        // It has no name any more where another terminal has just stored its own in that place.
        Ok(known) if known.is_file() && known.nlink() <= 1 => Ok(path),
        Ok(_) => Err(described(&TEXT).into()),
        Err(why) if why.kind() == ErrorKind::NotFound => Ok(path),
        Err(why) => Err(described(&why).into()),
    }
}

fn folder_of(path: &Path) -> &Path {
    path.parent()
        .filter(|folder| !folder.as_os_str().is_empty())
        .unwrap_or_else(|| Path::new("."))
}

/// The path of a file beside another.
fn with_ending(path: &Path, ending: &str) -> PathBuf {
    let mut whole = OsString::from(path);
    whole.push(ending);
    whole.into()
}

fn private(options: &mut OpenOptions) -> &mut OpenOptions {
    options.mode(0o600)
}

/// Locks a file until it is closed, and waits for that.
fn lock_whole(file: &File) -> io::Result<()> {
    const EXCLUSIVE: i32 = 2;
    extern "C" {
        fn flock(descriptor: i32, operation: i32) -> i32;
    }
    // SAFETY: `flock` of the C library takes two numbers, and the file is open.
    while unsafe { flock(file.as_raw_fd(), EXCLUSIVE) } != 0 {
        let why = io::Error::last_os_error();
        if why.kind() != ErrorKind::Interrupted {
            return Err(why);
        }
    }
    Ok(())
}

/// Stores bytes, so that a stop at any time leaves these or those before.
fn store(path: &Path, bytes: &[u8]) -> io::Result<()> {
    let next = with_ending(path, ".next");
    replace(path, &next, bytes)
        .map_err(|why| io::Error::new(why.kind(), format!("{}: {}", next.display(), why)))
}

fn replace(path: &Path, next: &Path, bytes: &[u8]) -> io::Result<()> {
    // What a stop left there goes, and a link is not followed.
    match fs::remove_file(next) {
        Err(why) if why.kind() != ErrorKind::NotFound => return Err(why),
        _ => {}
    }
    let mut file = private(OpenOptions::new().write(true).create_new(true)).open(next)?;
    file.write_all(bytes)?;
    file.sync_all()?;
    drop(file);
    fs::rename(next, path)?;
    File::open(folder_of(path))?.sync_all()
}

/// Writes a line at once.
fn say(line: &str) {
    // Who does not hear it is not helped by a fault.
    let _ = io::stderr().write_all(format!("{}\n", line).as_bytes());
}

/// Sends a frame, and waits for the one that comes back.
fn ask(frame: &[u8]) -> Outcome<Vec<u8>> {
    send(frame)
        .and_then(|()| receive())
        .map_err(|_| "no reply".into())
}

/// Sends a frame at once: Rust's own output would part it at a byte that ends a line.
fn send(frame: &[u8]) -> Outcome<()> {
    let mut output = File::from(io::stdout().as_fd().try_clone_to_owned()?);
    Ok(output.write_all(frame)?)
}

fn receive() -> Outcome<Vec<u8>> {
    let mut input = io::stdin();
    let mut frame = vec![0; 2];
    input.read_exact(&mut frame)?;
    frame.resize(dukpt::frame_length(&frame)?, 0);
    input.read_exact(&mut frame[2..])?;
    Ok(frame)
}

/// Why an answer that is not the reply ends the terminal.
fn refused(answer: &[u8], fault: Fault) -> Box<dyn Error> {
    match dukpt::read_refusal(answer) {
        Ok(refusal) => format!("refused {} {}", refusal.ksn, refusal.reason).into(),
        Err(_) => format!("no reply: {:?}", fault).into(),
    }
}

/// Reverses a purchase of which nothing is known, under the next number.
fn reverse(files: &Files, terminal: &mut Terminal, reversed: Ksn) -> Outcome<()> {
    let Transaction { key, ksn } = files.take(terminal)?;
    let frame = dukpt::reversal_request(&key, &ksn, &reversed)?;
    say(&format!("reversing {} of {}", ksn, reversed));

    let answer = ask(&frame)?;
    dukpt::check_reversal_reply(&key, &ksn, &reversed, &answer)
        .map_err(|fault| refused(&answer, fault))?;
    let reply = dukpt::read_reversal_reply(&answer)?;
    files.keep(Undone { ksn: reversed })?;
    say(&match reply.state {
        ReversalState::Undone => format!("undone {}", reversed),
        ReversalState::NoneStands => format!("none stands {}", reversed),
    });
    Ok(())
}

/// A purchase under the next number. Two more have to follow it: they are for reversals.
fn pay(files: &Files, terminal: &mut Terminal, amount: u32) -> Outcome<()> {
    dukpt::next_number(&dukpt::next_number(&terminal.number()?)?)?;
    let Transaction { key, ksn } = files.take(terminal)?;
    let frame = dukpt::payment_request(&key, &ksn, PAN, PIN, amount)?;
    files.keep(Open { ksn, amount })?;
    say(&format!("number {}", ksn));

    let answer = ask(&frame)?;
    dukpt::check_reply(&key, &ksn, &answer).map_err(|fault| refused(&answer, fault))?;
    let done = match &dukpt::read_reply(&answer)?.code {
        b"00" => Approved { ksn, amount },
        [tens, ones] => Declined {
            ksn,
            code: 10 * (tens - b'0') + ones - b'0',
        },
    };
    files.keep(done)?;
    say(&done.to_string());
    Ok(())
}

/// What is done with the lock held: the last purchase comes to rest, and then one more is paid.
fn serve(image: &Path, amount: Option<u32>) -> Outcome<()> {
    let files = Files::locked(image)?;
    let last = files.last_purchase()?;
    let mut terminal = files.terminal(last.is_some())?;
    if let Some(last) = last {
        say(&format!("last {}", last));
    }
    if let Some(Open { ksn, .. }) = last {
        reverse(&files, &mut terminal, ksn)?;
    }
    match amount {
        Some(amount) => pay(&files, &mut terminal, amount),
        None => Ok(()),
    }
}

/// An amount in decimal digits.
fn amount_in(word: OsString) -> Option<u32> {
    let digits = word
        .to_str()
        .filter(|it| it.bytes().all(|digit| digit.is_ascii_digit()))?;
    digits.parse().ok()
}

fn run() -> Outcome<()> {
    let mut words = std::env::args_os().skip(1);
    let image = PathBuf::from(words.next().ok_or(USAGE)?);
    let amounts: Vec<u32> = words.map(amount_in).collect::<Option<_>>().ok_or(USAGE)?;
    let image = only_path(&image)?;
    if amounts.is_empty() {
        return serve(&image, None);
    }
    amounts
        .into_iter()
        .try_for_each(|amount| serve(&image, Some(amount)))
}

/// An error, and each cause behind it.
fn in_full(why: &dyn Error) -> String {
    match why.source() {
        Some(cause) => format!("{}: {}", why, in_full(cause)),
        None => why.to_string(),
    }
}

fn main() -> ExitCode {
    match run() {
        Ok(()) => ExitCode::SUCCESS,
        Err(why) => {
            say(&in_full(&*why));
            ExitCode::FAILURE
        }
    }
}
