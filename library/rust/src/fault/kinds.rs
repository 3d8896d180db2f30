//! The faults.
//!
//! Made of library/calls.toml by `tools/library --make`.

/// Why a call is refused. The numbers and the names are those of the library, and do not change any
/// more. A call that is refused has changed nothing.
#[derive(Debug, Clone, Copy, PartialEq, Eq, Hash)]
#[non_exhaustive]
#[repr(u32)]
pub enum Fault {
    /// A value has another length than the call takes.
    Length = 1,
    /// The counter of an initial key serial number is not zero.
    NotInitial = 2,
    /// The counter numbers no transaction: it is zero or has more than ten one bits.
    NotUsable = 3,
    /// No number is left.
    Spent = 4,
    /// The bytes are no image of a terminal.
    NotAnImage = 5,
    /// The initial key serial number is the terminal's own, or one that it had before.
    IksnSpent = 6,
    /// The terminal had eight initial key serial numbers before its own.
    LoadsSpent = 7,
    /// The PIN has fewer than 4 or more than 12 bytes.
    PinLength = 8,
    /// A byte of the PIN is no ASCII digit.
    PinDigit = 9,
    /// The PAN has fewer than 12 or more than 19 bytes.
    PanLength = 10,
    /// A byte of the PAN is no ASCII digit.
    PanDigit = 11,
    /// The block is no PIN block of this PAN.
    NotAPinBlock = 12,
    /// The key block has not 80 to 512 characters, a multiple of 8, or says another length.
    BlockLength = 13,
    /// The first character of a key block is not B.
    BlockVersion = 14,
    /// A header field cannot be printed, or the number of optional blocks is not two digits.
    BlockHeaderField = 15,
    /// Optional blocks do not fit, are over 99 or unprintable, or no key and MAC follow.
    BlockOptionalBlock = 16,
    /// A character after the optional blocks is no hexadecimal digit.
    BlockHex = 17,
    /// The MAC is not that of the key block.
    BlockMac = 18,
    /// The key's length is neither 128 nor 192 bits, or the payload is too short for it.
    BlockPayload = 19,
    /// The payload would be no whole blocks, or the text longer than 512 characters.
    BlockPadLength = 20,
    /// The bytes are no request's frame.
    NotARequest = 21,
    /// The bytes are no accepted reply's frame.
    NotAReply = 22,
    /// The bytes are no refusal's frame.
    NotARefusal = 23,
    /// The two bytes are no code of a reply: 00, 14, 30, 51 or 55.
    NotACode = 24,
    /// The reason of a refusal is none of 1 to 6.
    NotAReason = 25,
    /// The reply is to another key serial number.
    NotMine = 26,
    /// The MAC is not that of the frame.
    BadMac = 27,
    /// Fewer than the two bytes of a frame's length are there.
    PartOfFrame = 28,
    /// A length above 62 stands where a frame would begin.
    TooLong = 29,
    /// The key serial number cannot reverse the other one.
    NotReversed = 30,
    /// The bytes are no reversal's frame.
    NotAReversal = 31,
    /// The state of a reversal is neither 1 nor 0.
    NotAState = 32,
    /// The bytes are no frame of a reversal's reply.
    NotAReversalReply = 33,
    /// The key in the key block has another usage, or is no TDES key.
    OtherUsage = 34,
    /// The key in the key block has another length.
    OtherKeyLength = 35,
    /// The key block has no optional block with this id.
    NoOptionalBlock = 36,
    /// The bytes are no image of a security module.
    NotAModule = 37,
    /// The key block's usage, algorithm, mode or key length is that of another key.
    WrongUse = 38,
    /// The module has a base derivation key for this prefix.
    PrefixTaken = 39,
    /// The module has eight base derivation keys.
    SlotsFull = 40,
    /// The module has a zone key.
    ZoneTaken = 41,
    /// The module has no zone key.
    NoZone = 42,
    /// A place among the cards has no PAN or no PIN.
    NotACard = 43,
    /// The bytes are no payment and no reversal with what became of it.
    NotSettled = 44,
    /// The module has no base derivation key for the prefix of the key serial number.
    NoKeySet = 45,
}

impl Fault {
    /// Each fault, in the order of the numbers.
    pub const ALL: [Fault; 45] = [
        Fault::Length,
        Fault::NotInitial,
        Fault::NotUsable,
        Fault::Spent,
        Fault::NotAnImage,
        Fault::IksnSpent,
        Fault::LoadsSpent,
        Fault::PinLength,
        Fault::PinDigit,
        Fault::PanLength,
        Fault::PanDigit,
        Fault::NotAPinBlock,
        Fault::BlockLength,
        Fault::BlockVersion,
        Fault::BlockHeaderField,
        Fault::BlockOptionalBlock,
        Fault::BlockHex,
        Fault::BlockMac,
        Fault::BlockPayload,
        Fault::BlockPadLength,
        Fault::NotARequest,
        Fault::NotAReply,
        Fault::NotARefusal,
        Fault::NotACode,
        Fault::NotAReason,
        Fault::NotMine,
        Fault::BadMac,
        Fault::PartOfFrame,
        Fault::TooLong,
        Fault::NotReversed,
        Fault::NotAReversal,
        Fault::NotAState,
        Fault::NotAReversalReply,
        Fault::OtherUsage,
        Fault::OtherKeyLength,
        Fault::NoOptionalBlock,
        Fault::NotAModule,
        Fault::WrongUse,
        Fault::PrefixTaken,
        Fault::SlotsFull,
        Fault::ZoneTaken,
        Fault::NoZone,
        Fault::NotACard,
        Fault::NotSettled,
        Fault::NoKeySet,
    ];

    /// What is wrong, as a clause.
    pub(super) fn cause(self) -> &'static str {
        match self {
            Fault::Length => "a value has another length than the call takes",
            Fault::NotInitial => "the counter of an initial key serial number is not zero",
            Fault::NotUsable => {
                "the counter numbers no transaction: it is zero or has more than ten one bits"
            }
            Fault::Spent => "no number is left",
            Fault::NotAnImage => "the bytes are no image of a terminal",
            Fault::IksnSpent => {
                "the initial key serial number is the terminal's own, or one that it had before"
            }
            Fault::LoadsSpent => "the terminal had eight initial key serial numbers before its own",
            Fault::PinLength => "the PIN has fewer than 4 or more than 12 bytes",
            Fault::PinDigit => "a byte of the PIN is no ASCII digit",
            Fault::PanLength => "the PAN has fewer than 12 or more than 19 bytes",
            Fault::PanDigit => "a byte of the PAN is no ASCII digit",
            Fault::NotAPinBlock => "the block is no PIN block of this PAN",
            Fault::BlockLength => {
                "the key block has not 80 to 512 characters, a multiple of 8, or says another length"
            }
            Fault::BlockVersion => "the first character of a key block is not B",
            Fault::BlockHeaderField => {
                "a header field cannot be printed, or the number of optional blocks is not two digits"
            }
            Fault::BlockOptionalBlock => {
                "optional blocks do not fit, are over 99 or unprintable, or no key and MAC follow"
            }
            Fault::BlockHex => "a character after the optional blocks is no hexadecimal digit",
            Fault::BlockMac => "the MAC is not that of the key block",
            Fault::BlockPayload => {
                "the key's length is neither 128 nor 192 bits, or the payload is too short for it"
            }
            Fault::BlockPadLength => {
                "the payload would be no whole blocks, or the text longer than 512 characters"
            }
            Fault::NotARequest => "the bytes are no request's frame",
            Fault::NotAReply => "the bytes are no accepted reply's frame",
            Fault::NotARefusal => "the bytes are no refusal's frame",
            Fault::NotACode => "the two bytes are no code of a reply: 00, 14, 30, 51 or 55",
            Fault::NotAReason => "the reason of a refusal is none of 1 to 6",
            Fault::NotMine => "the reply is to another key serial number",
            Fault::BadMac => "the MAC is not that of the frame",
            Fault::PartOfFrame => "fewer than the two bytes of a frame's length are there",
            Fault::TooLong => "a length above 62 stands where a frame would begin",
            Fault::NotReversed => "the key serial number cannot reverse the other one",
            Fault::NotAReversal => "the bytes are no reversal's frame",
            Fault::NotAState => "the state of a reversal is neither 1 nor 0",
            Fault::NotAReversalReply => "the bytes are no frame of a reversal's reply",
            Fault::OtherUsage => "the key in the key block has another usage, or is no TDES key",
            Fault::OtherKeyLength => "the key in the key block has another length",
            Fault::NoOptionalBlock => "the key block has no optional block with this id",
            Fault::NotAModule => "the bytes are no image of a security module",
            Fault::WrongUse => {
                "the key block's usage, algorithm, mode or key length is that of another key"
            }
            Fault::PrefixTaken => "the module has a base derivation key for this prefix",
            Fault::SlotsFull => "the module has eight base derivation keys",
            Fault::ZoneTaken => "the module has a zone key",
            Fault::NoZone => "the module has no zone key",
            Fault::NotACard => "a place among the cards has no PAN or no PIN",
            Fault::NotSettled => "the bytes are no payment and no reversal with what became of it",
            Fault::NoKeySet => {
                "the module has no base derivation key for the prefix of the key serial number"
            }
        }
    }
}
