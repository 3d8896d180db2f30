//! Each fault comes, under its number and name.

use dukpt::*;

const KEY: Key = Key::new(*b"\x04\x26\x66\xB4\x91\x84\xCF\xA3\x68\xDE\x96\x28\xD0\x39\x7B\xC9");
const IKSN: Ksn = Ksn::new(*b"\xFF\xFF\x98\x76\x54\x32\x10\xE0\x00\x00");
const KSN: Ksn = Ksn::new(*b"\xFF\xFF\x98\x76\x54\x32\x10\xE0\x00\x01");
const NEXT: Ksn = Ksn::new(*b"\xFF\xFF\x98\x76\x54\x32\x10\xE0\x00\x02");
/// The last number that a terminal has: ten one bits, and then zeros.
const LAST: Ksn = Ksn::new(*b"\xFF\xFF\x98\x76\x54\x32\x10\xFF\xF8\x00");
const PAN: &[u8] = b"4012345678909";

/// The name and the number of each fault, as docs/calls.txt has them.
const NAMES: [&str; 45] = [
    "Length",
    "NotInitial",
    "NotUsable",
    "Spent",
    "NotAnImage",
    "IksnSpent",
    "LoadsSpent",
    "PinLength",
    "PinDigit",
    "PanLength",
    "PanDigit",
    "NotAPinBlock",
    "BlockLength",
    "BlockVersion",
    "BlockHeaderField",
    "BlockOptionalBlock",
    "BlockHex",
    "BlockMac",
    "BlockPayload",
    "BlockPadLength",
    "NotARequest",
    "NotAReply",
    "NotARefusal",
    "NotACode",
    "NotAReason",
    "NotMine",
    "BadMac",
    "PartOfFrame",
    "TooLong",
    "NotReversed",
    "NotAReversal",
    "NotAState",
    "NotAReversalReply",
    "OtherUsage",
    "OtherKeyLength",
    "NoOptionalBlock",
    "NotAModule",
    "WrongUse",
    "PrefixTaken",
    "SlotsFull",
    "ZoneTaken",
    "NoZone",
    "NotACard",
    "NotSettled",
    "NoKeySet",
];

/// That a call is refused with the fault of a number.
fn refused<T>(answer: Result<T, Fault>, number: u32) {
    let fault = answer.err().expect("a fault");
    assert_eq!(
        (fault.number(), format!("{:?}", fault)),
        (number, NAMES[number as usize - 1].into())
    );
}

#[test]
fn numbers() {
    for (fault, (name, number)) in Fault::ALL.into_iter().zip(NAMES.into_iter().zip(1..)) {
        refused::<()>(Err(fault), number);
        assert_eq!(Fault::from_number(number), Some(fault));
        assert!(fault.to_string().starts_with(&format!("{} ({}): ", name, number)));
    }
    assert_eq!((Fault::from_number(0), Fault::from_number(46)), (None, None));
}

#[test]
fn of_registers() {
    refused(retail_mac(&KEY, b""), 1);
    refused(TdesKey::try_from(&KEY.as_bytes()[1..]), 1);
    refused(Key::<16>::try_from(&[0; 15][..]), 1);
    refused(Ksn::try_from(&[0; 11][..]), 1);
    refused(Pin::try_from(&[b'1'; 13][..]), 1);
    refused(initial_key(&KEY, &KSN), 2);
    refused(Terminal::load(&KEY, &KSN), 2);
    refused(check_usable(&IKSN), 3);
    refused(next_number(&LAST), 4);
    refused(registers_number(&[2; 431]), 5);
    refused(Terminal::from_image(&[]), 5);
    let image = registers_load(&KEY, &IKSN).unwrap();
    refused(registers_reload(&image, &KEY, &IKSN), 6);
}

#[test]
fn of_the_tenth_life() {
    let mut image = registers_load(&KEY, &IKSN).unwrap();
    let iksn_of = |life| Ksn::new([0, 0, 0, 0, life, 0, 0, 0, 0, 0]);
    for life in 1..=8 {
        image = registers_reload(&image, &KEY, &iksn_of(life)).unwrap();
    }
    refused(registers_reload(&image, &KEY, &iksn_of(9)), 7);
}

#[test]
fn of_texts() {
    refused(pin_block(b"123", PAN), 8);
    refused(pin_block(b"123x", PAN), 9);
    refused(pin_block(b"1234", b"40123456789"), 10);
    refused(pin_block(b"1234", b"40123456789x"), 11);
    refused(pin_of_block(&[0; 8], PAN), 12);
}

#[test]
fn of_key_blocks() {
    let good = wrap(&KEY, b"P0TE00E", &KEY, &[0; 6]).unwrap();
    let changed = |at: usize, with: u8| {
        let mut text = good.to_vec();
        text[at] = with;
        unwrap(&KEY, &text)
    };
    refused(unwrap(&KEY, &good[1..]), 13);
    refused(changed(0, b'A'), 14);
    refused(changed(5, b'\n'), 15);
    refused(changed(13, b'1'), 16);
    refused(changed(20, b'x'), 17);
    refused(changed(7, b'D'), 18);
    refused(wrap(&KEY, b"P0TE\n0E", &KEY, &[0; 6]), 15);
    refused(wrap(&KEY, b"P0TE00E", &KEY, &[0; 5]), 20);
}

#[test]
fn of_a_payload() {
    // The payload says that its key has 8 bytes. The block was made by tests/support/standards/key_blocks.py.
    let text = b"B0080P0TE00E00009F214D6E852C0EB1F4DC684083D90D791502E65FB225F0C3DE32E4C5108F78E4";
    refused(unwrap(&KEY, text), 19);
}

#[test]
fn of_one_usage_and_optional_blocks() {
    let good = wrap(&KEY, b"P0TE00E", &KEY, &[0; 6]).unwrap();
    refused(unwrap_for::<8>(&KEY, b"P0", &good), 1);
    refused(unwrap_for::<300>(&KEY, b"P0", &good), 1);
    refused(unwrap_for::<16>(&KEY, b"P1", &good), 34);
    let of_aes = wrap(&KEY, b"P0AE00E", &KEY, &[0; 6]).unwrap();
    refused(unwrap_for::<16>(&KEY, b"P0", &of_aes), 34);
    refused(unwrap_for::<24>(&KEY, b"P0", &of_aes), 34);
    refused(unwrap_for::<24>(&KEY, b"P0", &good), 35);
    refused(unwrap_optional(&KEY, &good, b"KS"), 36);
    refused(wrap_with(&KEY, b"P0TE00E", b"KS0", &KEY, &[0; 6]), 16);
}

#[test]
fn of_frames() {
    let request = payment_request(&KEY, &KSN, PAN, b"1234", 1).unwrap();
    let reply = request_reply(&KEY, &KSN, b"00").unwrap();
    refused(read_request(&reply), 21);
    refused(read_reply(&request), 22);
    refused(read_refusal(&reply), 23);
    refused(request_reply(&KEY, &KSN, b"01"), 24);
    refused(request_refusal(&KSN, 7), 25);
    refused(check_reply(&KEY, &IKSN, &reply), 26);
    refused(check_reply(&pin_key(&KEY), &KSN, &reply), 27);
    refused(check_request(&pin_key(&KEY), &request), 27);
    refused(frame_length(&reply[..1]), 28);
    refused(frame_length(b"\x00\x3F"), 29);
}

#[test]
fn of_reversals() {
    let reversal = reversal_request(&KEY, &NEXT, &KSN).unwrap();
    let reply = reversal_reply(&KEY, &NEXT, &KSN, ReversalState::NoneStands).unwrap();
    refused(reversal_request(&KEY, &KSN, &KSN), 30);
    refused(reversal_reply(&KEY, &NEXT, &IKSN, ReversalState::Undone), 30);
    refused(read_reversal(&reply), 31);
    refused(check_reversal(&KEY, &reversal[1..]), 31);
    refused(check_reversal(&pin_key(&KEY), &reversal), 27);
    refused(ReversalState::try_from(2), 32);
    refused(read_reversal_reply(&reversal), 33);
    refused(check_reversal_reply(&KEY, &KSN, &NEXT, &reply), 26);
    refused(check_reversal_reply(&pin_key(&KEY), &NEXT, &KSN, &reply), 27);
}
