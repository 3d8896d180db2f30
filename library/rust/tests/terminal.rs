//! A terminal stores its next image before it gives a key.

use dukpt::{derive_from_initial, Fault, Image, Key, Ksn, Terminal, TerminalFault};

const INITIAL: Key = Key::new(*b"\x6A\xC2\x92\xFA\xA1\x31\x5B\x4D\x85\x8A\xB3\xA3\xD7\xD5\x93\x3A");
const IKSN: Ksn = Ksn::new(*b"\xFF\xFF\x98\x76\x54\x32\x10\xE0\x00\x00");
const OTHER: Ksn = Ksn::new(*b"\xFF\xFF\x98\x76\x54\x32\x10\xC0\x00\x00");
const LAST: Ksn = Ksn::new(*b"\xFF\xFF\x98\x76\x54\x32\x10\xFF\xF8\x00");

/// Keeps an image in a place.
fn into(place: &mut Vec<u8>) -> impl FnOnce(&Image) -> Result<(), ()> + '_ {
    move |image| {
        *place = image.to_vec();
        Ok(())
    }
}

#[test]
fn what_is_stored_comes_before_the_key() {
    let (mut terminal, mut stored) = (Terminal::load(&INITIAL, &IKSN).unwrap(), Vec::new());
    for _ in 0..100 {
        let number = terminal.number().unwrap();
        let taken = terminal.take(into(&mut stored)).unwrap();
        assert_eq!(taken.ksn, number);
        assert_eq!(taken.key, derive_from_initial(&INITIAL, &number));
        assert_eq!(stored, terminal.image());
        assert!(!stored.windows(16).any(|window| window == taken.key.as_bytes()));
        terminal = Terminal::from_image(&stored).unwrap();
    }
}

#[test]
fn a_store_that_fails_leaves_the_terminal() {
    let mut terminal = Terminal::load(&INITIAL, &IKSN).unwrap();
    let before = terminal.image().to_vec();
    let mut offered = Vec::new();
    let fault = terminal.take(|image| {
        offered = image.to_vec();
        Err("full")
    });
    assert_eq!(fault.unwrap_err(), TerminalFault::Store("full"));
    assert_eq!(
        terminal.reload(&INITIAL, &OTHER, |_| Err("full")),
        Err(TerminalFault::Store("full"))
    );
    assert_eq!(terminal.image(), before);
    assert_eq!(Terminal::from_image(&offered).unwrap().number().unwrap().as_bytes()[9], 2);
}

#[test]
fn a_spent_terminal_is_loaded_again() {
    let (mut terminal, mut stored) = (Terminal::at(&INITIAL, &LAST).unwrap(), Vec::new());
    assert_eq!(terminal.take(into(&mut stored)).unwrap().ksn, LAST);
    assert_eq!(terminal.number(), Err(Fault::Spent));
    let unstored = |_: &Image| -> Result<(), ()> { panic!("nothing is to be stored") };
    assert_eq!(terminal.take(unstored).unwrap_err(), TerminalFault::Call(Fault::Spent));
    let mut spent = Terminal::from_image(&stored).unwrap();
    let refused = spent.reload(&INITIAL, &IKSN, unstored);
    assert_eq!(refused, Err(TerminalFault::Call(Fault::IksnSpent)));
    spent.reload(&INITIAL, &OTHER, into(&mut stored)).unwrap();
    assert_eq!(stored, spent.image());
    assert_eq!(spent.number().unwrap().to_string(), "FFFF9876543210C00001");
}

#[test]
fn an_image_of_version_1_is_read() {
    let mut image = Terminal::load(&INITIAL, &IKSN).unwrap().image()[..350].to_vec();
    image[0] = 1;
    let (mut terminal, mut stored) = (Terminal::from_image(&image).unwrap(), Vec::new());
    assert_eq!(terminal.image(), image);
    terminal.take(into(&mut stored)).unwrap();
    assert_eq!((stored.len(), stored[0]), (431, 2));
}

/// The errors under an error, in words.
#[cfg(feature = "std")]
fn causes(error: &dyn std::error::Error) -> Vec<String> {
    let under = std::iter::successors(error.source(), |it| it.source());
    under.take(9).map(ToString::to_string).collect()
}

#[cfg(feature = "std")]
#[test]
fn a_fault_has_its_cause() {
    let mut terminal = Terminal::load(&INITIAL, &IKSN).unwrap();
    let full = || std::io::Error::new(std::io::ErrorKind::Other, "full");
    let stored = terminal.take(|_| Err(full())).unwrap_err();
    assert_eq!(stored.to_string(), "the image was not stored");
    assert_eq!(causes(&stored), ["full"]);
    let refused = terminal.reload(&INITIAL, &IKSN, |_| Err(full())).unwrap_err();
    assert_eq!(refused.to_string(), "the call is refused");
    assert_eq!(causes(&refused), [Fault::IksnSpent.to_string()]);
    assert_eq!(causes(&Fault::IksnSpent), [""; 0]);
}
