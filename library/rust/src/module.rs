//! A host's security module, and the two steps of a host that keeps its book elsewhere.

use crate::bytes::Bytes;
use crate::fault::{done, Fault};
use crate::requests::place_in;
use crate::shown::Hexadecimal;
use crate::wipe::{wipe_host_stack, Wiped};
use crate::{calls, Frame, Ksn, Reversal, ReversalState, Secret, TdesKey};
use core::fmt;

/// How many frames are given to a call at once, out of an array of 64 bytes for each.
const GROUP: usize = 128;

/// The bytes of a place, of an image and of a card.
const PLACE: usize = 64;
const IMAGE: usize = 4706;
const CARD: usize = 37;

/// The kinds of what is judged.
const PAYMENT: u8 = 1;
const REVERSAL: u8 = 2;

/// An authentic request, as a book settles it.
#[derive(Clone, Copy, PartialEq, Eq)]
pub struct Payment {
    /// The key serial number.
    pub ksn: Ksn,
    /// The amount in the smallest unit of the currency.
    pub amount: u32,
    /// The code that the issuer gives it, or gave it when it was kept: two ASCII digits.
    pub code: [u8; 2],
    /// The MAC, by which the same request is known again.
    pub mac: [u8; 8],
}

impl fmt::Debug for Payment {
    fn fmt(&self, f: &mut fmt::Formatter<'_>) -> fmt::Result {
        let mut shown = f.debug_struct("Payment");
        shown.field("ksn", &self.ksn).field("amount", &self.amount);
        shown.field("code", &Hexadecimal(&self.code)).field("mac", &Hexadecimal(&self.mac)).finish()
    }
}

/// What a frame is judged to be, whatever the book keeps.
#[derive(Debug, Clone, Copy, PartialEq, Eq)]
pub enum Judged {
    /// It is refused, and this is the frame of its answer.
    Refused(Frame),
    /// A payment, which the book settles.
    Payment(Payment),
    /// A reversal, which the book settles.
    Reversal(Reversal),
}

/// What becomes of an authentic frame by what a book keeps.
#[derive(Debug, Clone, Copy, PartialEq, Eq, Hash)]
#[repr(u8)]
pub enum Settlement {
    /// It is kept from now on.
    Kept = 1,
    /// The same was kept before.
    KnownAgain = 2,
    /// Its key serial number is used.
    Used = 3,
    /// There is no room for it.
    Full = 4,
}

/// An authentic frame with what became of it.
#[derive(Debug, Clone, Copy, PartialEq, Eq)]
pub enum Settled {
    /// A payment. Where it is known again, its code is the one that was kept.
    Payment(Payment, Settlement),
    /// A reversal, with what it found, where it is kept or known again.
    Reversal(Reversal, Settlement, ReversalState),
}

/// The bytes of a card for [`Module::judge`]: a PAN of 12 to 19 ASCII digits, a PIN of 4 to 12, and
/// the greatest amount of a payment, in the smallest unit of the currency.
///
/// Refused with `NotACard`.
pub fn card(pan: &[u8], pin: &[u8], limit: u32) -> Result<Secret<CARD>, Fault> {
    let digits = pan.iter().chain(pin).all(u8::is_ascii_digit);
    if !(12..=19).contains(&pan.len()) || !(4..=12).contains(&pin.len()) || !digits {
        return Err(Fault::NotACard);
    }
    Secret::filled(|place| {
        place[0] = pan.len() as u8;
        place[1..1 + pan.len()].copy_from_slice(pan);
        place[20] = pin.len() as u8;
        place[21..21 + pin.len()].copy_from_slice(pin);
        place[33..].copy_from_slice(&limit.to_be_bytes());
        Ok(())
    })
}

/// A host's security module: a local master key, at most eight base derivation keys and a zone key,
/// each from a key block under the local master key.
///
/// [`judge`](Module::judge) tells what frames are, whatever the book keeps. The book settles those
/// that are authentic, and [`answer`](Module::answer) makes their answers. Neither keeps anything,
/// so that threads may share a module. Both overwrite what they left on the stack. It is not
/// printed, and is overwritten with zeros when it is dropped. To move it can leave its bytes where it was before: from then on, a `Box` keeps it in
/// one place.
///
/// ```
/// use dukpt::{wrap, Judged, Key, Ksn, Module, Settled, Settlement};
///
/// let (lmk, bdk) = (Key::new([1; 24]), Key::new([2; 16]));
/// let mut module = Module::new(&lmk);
/// module.load_bdk(b"\xFF\xFF\x98\x76\x54", &wrap(&lmk, b"B0TX00N", &bdk, &[0; 6])?)?;
/// module.load_zone(&wrap(&lmk, b"P0TB00N", &Key::new([3; 16]), &[0; 6])?)?;
/// let cards = dukpt::card(b"4012345678909", b"1234", 500)?;
///
/// let ksn = Ksn::new(*b"\xFF\xFF\x98\x76\x54\x32\x10\xE0\x00\x01");
/// let key = dukpt::derive(&bdk, &ksn);
/// let request = dukpt::payment_request(&key, &ksn, b"4012345678909", b"1234", 500)?;
/// let mut judged = [Judged::Refused(dukpt::Frame::default()); 2];
/// module.judge(&cards, &[&request[..], b"no frame"], &mut judged)?;
/// match judged {
///     [Judged::Payment(payment), Judged::Refused(refusal)] => {
///         assert_eq!((payment.ksn, payment.amount, payment.code), (ksn, 500, *b"00"));
///         assert_eq!(dukpt::read_refusal(&refusal)?.reason, 1);
///         let mut answers = [dukpt::Frame::default()];
///         module.answer(&[Settled::Payment(payment, Settlement::Kept)], &mut answers)?;
///         dukpt::check_reply(&key, &ksn, &answers[0])?;
///     }
///     _ => unreachable!(),
/// }
/// # Ok::<(), dukpt::Fault>(())
/// ```
pub struct Module(Wiped<IMAGE>);

impl Module {
    /// A module with its local master key alone.
    pub fn new<'a>(lmk: impl Into<TdesKey<'a>>) -> Module {
        let mut module = Module(Wiped([0; IMAGE]));
        crate::fault::sure(calls::module_new(lmk.into().bytes(), &mut module.0 .0));
        module
    }

    /// Loads the base derivation key of a key block, for the key serial numbers that begin with
    /// these five bytes. The block has usage `B0`, algorithm `T`, mode `X` or `N`, and a key of 16
    /// bytes.
    ///
    /// Refused with a fault of the block, as by [`unwrap`](crate::unwrap), then `WrongUse`,
    /// `PrefixTaken`, `SlotsFull`.
    pub fn load_bdk(&mut self, prefix: &[u8; 5], block: &[u8]) -> Result<(), Fault> {
        done(calls::module_load_bdk(prefix, block, &mut self.0 .0))
    }

    /// Loads the zone key of a key block, under which PIN blocks come to the issuer. The block has
    /// usage `P0`, algorithm `T`, and mode `E`, `B` or `N`.
    ///
    /// Refused with a fault of the block, as by [`unwrap`](crate::unwrap), then `WrongUse`,
    /// `ZoneTaken`.
    pub fn load_zone(&mut self, block: &[u8]) -> Result<(), Fault> {
        done(calls::module_load_zone(block, &mut self.0 .0))
    }

    /// Writes what frames are in the front of a slice with room for as many: refused, or a payment
    /// or a reversal for the book. An issuer with these cards, each in bytes of [`card`], is asked
    /// about each payment, whether or not the book keeps it. Of two cards with one PAN the first
    /// counts.
    ///
    /// Refused with `Length`, where the slice is shorter or the cards are no whole ones; then
    /// `NoZone`, then `NotACard`.
    pub fn judge<F: AsRef<[u8]>>(
        &self,
        cards: &[u8],
        frames: &[F],
        judged: &mut [Judged],
    ) -> Result<(), Fault> {
        let judged = judged.get_mut(..frames.len()).ok_or(Fault::Length)?;
        if frames.is_empty() {
            // Keys and cards are refused where there is no frame, too.
            return self.judge_places(cards, &[], &mut []);
        }
        for (frames, judged) in frames.chunks(GROUP).zip(judged.chunks_mut(GROUP)) {
            let mut places = [0; PLACE * GROUP];
            for (place, frame) in places.chunks_exact_mut(PLACE).zip(frames) {
                place_in(frame.as_ref(), place);
            }
            let (mut found, size) = ([0; PLACE * GROUP], PLACE * frames.len());
            let (places, found) = (&places[..size], &mut found[..size]);
            self.judge_places(cards, places, found)?;
            for (one, place) in judged.iter_mut().zip(found.chunks_exact(PLACE)) {
                *one = judged_in(place);
            }
        }
        Ok(())
    }

    /// Writes what the frames of places are.
    fn judge_places(&self, cards: &[u8], places: &[u8], found: &mut [u8]) -> Result<(), Fault> {
        let status = calls::host_judge(&self.0 .0, cards, places, found);
        wipe_host_stack();
        done(status)
    }

    /// Writes the frames of the answers to what the book settled in the front of a slice with room
    /// for as many.
    ///
    /// Refused with `Length`, where the slice is shorter, and with `NotSettled`, `NoKeySet` or
    /// `NotUsable` of the first that is none of what this module judged.
    pub fn answer(&self, settled: &[Settled], answers: &mut [Frame]) -> Result<(), Fault> {
        let answers = answers.get_mut(..settled.len()).ok_or(Fault::Length)?;
        for (settled, answers) in settled.chunks(GROUP).zip(answers.chunks_mut(GROUP)) {
            let mut places = [0; PLACE * GROUP];
            for (place, one) in places.chunks_exact_mut(PLACE).zip(settled) {
                say(one, place);
            }
            let (mut found, size) = ([0; PLACE * GROUP], PLACE * settled.len());
            let found = &mut found[..size];
            let status = calls::host_answer(&self.0 .0, &places[..size], found);
            wipe_host_stack();
            done(status)?;
            for (answer, place) in answers.iter_mut().zip(found.chunks_exact(PLACE)) {
                done(u32::from(place[0]))?;
                *answer = frame_in(place);
            }
        }
        Ok(())
    }
}

/// What a place says that a frame is.
fn judged_in(place: &[u8]) -> Judged {
    match place[0] {
        PAYMENT => Judged::Payment(Payment {
            ksn: Ksn::new(array_at(place, 2)),
            amount: u32::from_be_bytes(array_at(place, 12)),
            code: array_at(place, 16),
            mac: array_at(place, 18),
        }),
        REVERSAL => Judged::Reversal(Reversal {
            ksn: Ksn::new(array_at(place, 2)),
            reversed: Ksn::new(array_at(place, 12)),
            mac: array_at(place, 22),
        }),
        _ => Judged::Refused(frame_in(place)),
    }
}

/// Writes what was settled in a place.
fn say(settled: &Settled, place: &mut [u8]) {
    match settled {
        Settled::Payment(payment, settlement) => {
            place[..2].copy_from_slice(&[PAYMENT, *settlement as u8]);
            place[2..12].copy_from_slice(payment.ksn.as_bytes());
            place[12..16].copy_from_slice(&payment.amount.to_be_bytes());
            place[16..18].copy_from_slice(&payment.code);
            place[18..26].copy_from_slice(&payment.mac);
        }
        Settled::Reversal(reversal, settlement, state) => {
            place[..2].copy_from_slice(&[REVERSAL, *settlement as u8]);
            place[2..12].copy_from_slice(reversal.ksn.as_bytes());
            place[12..22].copy_from_slice(reversal.reversed.as_bytes());
            place[22..30].copy_from_slice(&reversal.mac);
            place[30] = *state as u8;
        }
    }
}

/// The frame at the begin of a place.
fn frame_in(place: &[u8]) -> Frame {
    let length = 2 + usize::from(u16::from_be_bytes(array_at(place, 0)));
    Bytes::of(&place[..length])
}

/// So many bytes of a place.
fn array_at<const N: usize>(place: &[u8], at: usize) -> [u8; N] {
    let mut array = [0; N];
    array.copy_from_slice(&place[at..at + N]);
    array
}
