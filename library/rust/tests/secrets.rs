//! Secrets are not printed, and are zeros once they are dropped.

use dukpt::{Key, Ksn, ReversalState, TdesKey, Terminal};
use std::alloc::{GlobalAlloc, Layout, System};
use std::sync::atomic::{AtomicUsize, Ordering};

/// What the secrets of these tests begin with. A byte of it is in no other memory of the test.
const MARK: [u8; 4] = *b"\xD7\x3B\xE5\x91";

/// The system's memory. It counts where a mark is in memory that is given back.
struct Watched;

static LEFT: AtomicUsize = AtomicUsize::new(0);

// SAFETY: the memory is the system's. What is read before it is given back was written, by
// `alloc_zeroed` where nobody else did.
unsafe impl GlobalAlloc for Watched {
    unsafe fn alloc(&self, layout: Layout) -> *mut u8 {
        System.alloc_zeroed(layout)
    }

    unsafe fn dealloc(&self, block: *mut u8, layout: Layout) {
        let bytes = std::slice::from_raw_parts(block, layout.size());
        LEFT.fetch_add(
            bytes.windows(MARK.len()).filter(|it| *it == MARK).count(),
            Ordering::SeqCst,
        );
        System.dealloc(block, layout)
    }
}

#[global_allocator]
static MEMORY: Watched = Watched;

/// How often the mark is left in memory that is given back meanwhile.
fn left_by(work: impl FnOnce()) -> usize {
    let before = LEFT.load(Ordering::SeqCst);
    work();
    LEFT.load(Ordering::SeqCst) - before
}

fn marked<const N: usize>() -> [u8; N] {
    let mut bytes = [0x55; N];
    bytes[..MARK.len()].copy_from_slice(&MARK);
    bytes
}

const IKSN: Ksn = Ksn::new(*b"\xFF\xFF\x98\x76\x54\x32\x10\xE0\x00\x00");
const PIN: &[u8] = b"84629157";
const PAN: &[u8] = b"4012345678909";

/// All of it is one test: the count is of the whole process.
#[test]
fn what_is_dropped_is_zeros() {
    assert_eq!(left_by(|| drop(Box::new(marked::<16>()))), 1, "the memory is watched");

    let key = Key::new(marked::<16>());
    assert_eq!(left_by(|| drop(Box::new(key.clone()))), 0);
    assert_eq!(left_by(|| drop(Box::new(Key::new(marked::<24>())))), 0);
    assert_eq!(left_by(|| drop(vec![key.clone(), key.clone()])), 0);

    let text = dukpt::wrap(&key, b"B1TX00N", &key, &[0; 6]).unwrap();
    assert_eq!(left_by(|| drop(Box::new(dukpt::unwrap(&key, &text).unwrap()))), 0);
    let held = dukpt::unwrap_for::<16>(&key, b"B1", &text).unwrap();
    assert_eq!(held.as_bytes(), &marked::<16>());

    // The mark is in the number of this image.
    let iksn = Ksn::new(*b"\xD7\x3B\xE5\x91\x10\xE0\x00\x00\x00\x00");
    let image = Box::new(dukpt::registers_load(&key, &iksn).unwrap());
    assert_eq!(left_by(|| drop(image.to_vec())), 1);
    let terminal = Box::new(Terminal::from_image(&image).unwrap());
    assert_eq!(left_by(|| drop((image, terminal))), 0);
}

/// Optimizing compilers leave out writes to memory that nobody reads any more.
#[cfg(not(debug_assertions))]
mod optimized {
    use super::{marked, Key};

    #[inline(never)]
    fn place_of_key() -> usize {
        let key = Key::new(marked::<16>());
        dukpt::check_value(&key);
        key.as_bytes().as_ptr() as usize
    }

    #[inline(never)]
    fn place_of_bytes() -> usize {
        let bytes = marked::<16>();
        dukpt::check_value(&bytes);
        bytes.as_ptr() as usize
    }

    /// What a function left on the stack at a place.
    fn left_at(place: usize) -> [u8; 16] {
        // SAFETY: the stack below is there, and nothing was called since.
        unsafe { std::ptr::read_volatile(place as *const [u8; 16]) }
    }

    #[test]
    fn what_is_dropped_is_zeros_on_the_stack() {
        let (bytes, key) = (left_at(place_of_bytes()), left_at(place_of_key()));
        assert_eq!(bytes, marked::<16>(), "the stack is watched");
        assert_eq!(key, [0; 16]);
    }
}

#[test]
fn nothing_prints_a_key() {
    let initial = Key::new(*b"\x6A\xC2\x92\xFA\xA1\x31\x5B\x4D\x85\x8A\xB3\xA3\xD7\xD5\x93\x3A");
    let image = dukpt::registers_load(&initial, &IKSN).unwrap();
    let mut terminal = Terminal::from_image(&image).unwrap();
    let taken = terminal.take(|_| Ok::<(), ()>(())).unwrap();
    let wrapped = dukpt::wrap(&initial, b"B1TX00N", &taken.key, &[0; 6]).unwrap();
    let request = dukpt::payment_request(&taken.key, &taken.ksn, PAN, PIN, 7).unwrap();
    let shown = [
        (format!("{:?}", taken.key), "Key(..)"),
        (format!("{:?}", TdesKey::from(&taken.key)), "TdesKey(16)"),
        (format!("{:?}", image), "Secret(..)"),
        (format!("{:?}", dukpt::request_pin(&taken.key, &request).unwrap()), "Secret(..)"),
        (format!("{:?}", taken), "Transaction { ksn: FFFF9876543210E00001, .. }"),
        (
            format!("{:?}", dukpt::registers_next(&image).unwrap()),
            "Taken { ksn: FFFF9876543210E00001, .. }",
        ),
        (format!("{:?}", terminal), "Terminal { number: Ok(FFFF9876543210E00002), .. }"),
        (
            format!("{:?}", dukpt::unwrap(&initial, &wrapped).unwrap()),
            "KeyBlock { header: \"B1TX00N\", .. }",
        ),
        (
            format!("{:?}", dukpt::read_request(&request).unwrap()),
            "Request { ksn: FFFF9876543210E00001, amount: 7, .. }",
        ),
        (format!("{:?}", wrapped), "Bytes(80)"),
    ];
    shown.iter().for_each(|(found, wanted)| assert_eq!(found, wanted));
}

#[test]
fn what_is_public_is_hexadecimal() {
    let key = Key::new(*b"\xC4\x65\x51\xCE\xF9\xFD\x24\xB0\xAA\x9A\xD8\x34\x13\x0D\x3B\xC7");
    let ksn = Ksn::new(*b"\xFF\xFF\x98\x76\x54\x32\x10\xE0\x00\x02");
    let payment = Ksn::new(*b"\xFF\xFF\x98\x76\x54\x32\x10\xE0\x00\x01");
    let reply = dukpt::request_reply(&key, &ksn, b"51").unwrap();
    let shown = format!("{:?}", dukpt::read_reply(&reply).unwrap());
    assert_eq!(shown, "Reply { ksn: FFFF9876543210E00002, code: \"51\" }");
    let reversal = dukpt::reversal_request(&key, &ksn, &payment).unwrap();
    let shown = format!("{:?}", dukpt::read_reversal(&reversal).unwrap());
    let numbers = "ksn: FFFF9876543210E00002, reversed: FFFF9876543210E00001";
    assert_eq!(shown, format!("Reversal {{ {}, mac: 3B8EA61D9F5F532F }}", numbers));
    let reply = dukpt::reversal_reply(&key, &ksn, &payment, ReversalState::NoneStands).unwrap();
    let shown = format!("{:?}", dukpt::read_reversal_reply(&reply).unwrap());
    assert_eq!(shown, format!("ReversalReply {{ {}, state: NoneStands }}", numbers));
}

#[test]
fn keys_are_compared_whole() {
    let key = Key::new(marked::<16>());
    for at in 0..16 {
        let mut other = marked::<16>();
        other[at] ^= 0x80;
        assert!(key != Key::new(other), "byte {}", at);
    }
    assert!(key == key.clone());
    let pin = |digits: &[u8]| {
        let block = dukpt::pin_block(digits, PAN).unwrap();
        dukpt::pin_of_block(&block, PAN).unwrap()
    };
    assert!(pin(b"1234") == pin(b"1234"));
    assert!(pin(b"1234") != pin(b"12345") && pin(b"12345") != pin(b"1234"));
    assert!(pin(b"1234") != pin(b"1235"));
}
