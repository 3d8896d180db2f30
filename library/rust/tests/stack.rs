//! The two steps of a module leave no key on the stack.

use dukpt::{Frame, Judged, Key, Ksn, Module, Payment, Settled, Settlement};
use std::fs::{read_to_string, File};
use std::os::unix::fs::FileExt;
use std::thread;

/// The bytes of an image, and of a place for a frame.
const IMAGE: usize = 4706;
const PLACE: usize = 64;

/// What each key of these tests begins with.
const MARK: [u8; 8] = *b"\xD7\x3B\xE5\x91\x4C\xA8\x62\x0F";
const LMK: Key<24> = Key::new(*b"\xD7\x3B\xE5\x91\x4C\xA8\x62\x0F0123456789abcdef");
const KEY: Key = Key::new(*b"\xD7\x3B\xE5\x91\x4C\xA8\x62\x0F01234567");
const PREFIX: &[u8; 5] = b"\xFF\xFF\x98\x76\x54";
const KSN: Ksn = Ksn::new(*b"\xFF\xFF\x98\x76\x54\x32\x10\xE0\x00\x01");

// A step of C, which wipes nothing by itself.
extern "C" {
    fn dukpt_host_answer(
        image: *const u8,
        image_size: usize,
        settled: *const u8,
        settled_size: usize,
        answers: *mut u8,
        answers_size: usize,
    ) -> u32;
    fn dukpt_module_new(lmk: *const u8, lmk_size: usize, image: *mut u8, image_size: usize) -> u32;
    fn dukpt_module_load_bdk(
        prefix: *const u8,
        prefix_size: usize,
        block: *const u8,
        block_size: usize,
        image: *mut u8,
        image_size: usize,
    ) -> u32;
}

/// How often the mark is on the stack of this thread.
#[inline(never)]
fn marks() -> usize {
    let here = 0u8;
    let place = &here as *const u8 as usize;
    let maps = read_to_string("/proc/self/maps").unwrap();
    let (begin, end) = maps.lines().map(bounds).find(|it| it.0 <= place && place < it.1).unwrap();
    let mut stack = vec![0; end - begin];
    File::open("/proc/self/mem").unwrap().read_exact_at(&mut stack, begin as u64).unwrap();
    stack.windows(MARK.len()).filter(|it| **it == MARK).count()
}

/// Where the memory of a line of the map begins and ends.
fn bounds(line: &str) -> (usize, usize) {
    let (begin, end) = line.split_once(' ').unwrap().0.split_once('-').unwrap();
    (usize::from_str_radix(begin, 16).unwrap(), usize::from_str_radix(end, 16).unwrap())
}

/// How often the mark is on the stack of a new thread that does some work.
fn marks_behind(work: impl FnOnce() + Send) -> usize {
    thread::scope(|scope| {
        let joined = scope.spawn(|| {
            work();
            marks()
        });
        joined.join().unwrap()
    })
}

fn payment() -> Payment {
    Payment { ksn: KSN, amount: 1, code: *b"00", mac: [0; 8] }
}

#[test]
fn a_module_wipes_the_stack() {
    let mut module = Box::new(Module::new(&LMK));
    module.load_bdk(PREFIX, &dukpt::wrap(&LMK, b"B0TX00N", &KEY, &[0; 6]).unwrap()).unwrap();
    module.load_zone(&dukpt::wrap(&LMK, b"P0TB00N", &KEY, &[0; 6]).unwrap()).unwrap();
    let key = dukpt::derive(&KEY, &KSN);
    let request = dukpt::payment_request(&key, &KSN, b"4012345678909", b"1234", 500).unwrap();
    let cards = dukpt::card(b"4012345678909", b"1234", 500).unwrap();
    for count in [1, 40] {
        let (frames, mut judged) = (vec![request; count], vec![Judged::Refused(request); count]);
        assert_eq!(marks_behind(|| module.judge(&cards, &frames, &mut judged).unwrap()), 0);
        assert!(judged.iter().all(|it| matches!(it, Judged::Payment(it) if it.code == *b"00")));
        let settled = vec![Settled::Payment(payment(), Settlement::Kept); count];
        let mut answers = vec![Frame::default(); count];
        assert_eq!(marks_behind(|| module.answer(&settled, &mut answers).unwrap()), 0);
        dukpt::check_reply(&key, &KSN, &answers[count - 1]).unwrap();
    }
}

/// Else the test above could not fail.
#[test]
fn a_call_alone_leaves_keys() {
    let block = dukpt::wrap(&LMK, b"B0TX00N", &KEY, &[0; 6]).unwrap();
    let (lmk, mut image) = (LMK, vec![0u8; IMAGE]);
    let mut place = [0u8; PLACE];
    place[..2].copy_from_slice(&[1, 1]);
    place[2..12].copy_from_slice(KSN.as_bytes());
    place[16..18].copy_from_slice(b"00");
    let mut answer = [0u8; PLACE];
    // SAFETY: each pointer is valid for the length behind it, and nothing overlaps what is written.
    unsafe {
        let status = dukpt_module_new(lmk.as_bytes().as_ptr(), 24, image.as_mut_ptr(), IMAGE);
        assert_eq!(status, 0);
        let status = dukpt_module_load_bdk(
            PREFIX.as_ptr(),
            PREFIX.len(),
            block.as_ptr(),
            block.len(),
            image.as_mut_ptr(),
            IMAGE,
        );
        assert_eq!(status, 0);
    }
    let left = marks_behind(|| {
        // SAFETY: the same.
        let status = unsafe {
            let (place, answer) = (place.as_ptr(), answer.as_mut_ptr());
            dukpt_host_answer(image.as_ptr(), IMAGE, place, PLACE, answer, PLACE)
        };
        assert_eq!(status, 0);
    });
    assert!(left > 0);
}

#[test]
fn no_frame_is_refused_as_one_is() {
    let module = Module::new(&LMK);
    let none: [&[u8]; 0] = [];
    assert_eq!(module.judge(&[], &none, &mut []), Err(dukpt::Fault::NoZone));
    assert_eq!(module.judge(&[0], &none, &mut []), Err(dukpt::Fault::Length));
    assert_eq!(module.judge(&[], &[&b"a"[..]], &mut []), Err(dukpt::Fault::Length));
    assert_eq!(module.answer(&[], &mut []), Ok(()));
}
