"""What each flag of a case means, with the standard's section."""
from __future__ import annotations

DUKPT = "ANSI X9.24-1:2009 annex A"
TDES = "NIST SP 800-67"
PIN = "ISO 9564-1 format 0"
BLOCK = "ANSI X9.143 (TR-31), version B"
OWN = "this project's own"


def note(description: str, section: str) -> dict[str, str]:
    """A flag's entry in the notes of a file."""
    return {"description": description, "section": section}


FLAGS: dict[str, dict[str, str]] = {
    "OwnRule": note(
        "No standard decides the case, or one allows more than this project takes. A deviation"
        " breaks this project's rule alone.", OWN),
    "ManyNumbers": note("It passes and takes more than 50,000 numbers. An implementation that makes"
                        " the key of each may want more time, or leave it out.", DUKPT),
    "Sample": note("The values are those of the standard's samples, or of the published example.",
                   "that of the group"),
    "Random": note("Keys, numbers and messages are drawn of a fixed seed.", "that of the group"),
    "WrongLength": note("An input is shorter or longer than it may be, and is refused: it is"
                        " neither cut nor filled.", "that of the group"),
    "Empty": note("The message, or the data, has no byte.", "that of the group"),
    # Keys.
    "WeakKey": note("The key has weak or semi-weak halves. They are taken as they are.", TDES),
    "EqualHalves": note("Parts of the key are equal, so that triple DES is single DES, or differ by"
                        " the mask of DUKPT.", TDES),
    "Parity": note("Parity bits are neither checked nor adjusted. Those of a cipher's key change"
                   " nothing; those of a key that is xored or given are its bits as all others.",
                   TDES),
    "KeyOrBlockBit": note("One bit of a key or a block by itself.", TDES),
    "TwoKeys": note("A key of 16 bytes has its first half for its third too.", TDES),
    "ThreeKeys": note("A key of 24 bytes has three keys.", TDES),
    "EqualBlocks": note("Equal blocks are enciphered to other ones in a chain.",
                        "NIST SP 800-38A section 6.2"),
    "WrongKey": note("The key is another one.", "that of the group"),
    # Numbers.
    "FirstNumber": note("The counter is 1, that of a terminal's first number.", DUKPT),
    "LastNumber": note("The counter is 1FF800, that of a terminal's last number, or the stretch"
                       " ends there.", DUKPT),
    "NearTheEnd": note("One of a terminal's last numbers.", DUKPT),
    "TenOneBits": note("The counter has ten one bits, the most that it may have. Its key is ten"
                       " steps from the initial key.", DUKPT),
    "PowerOfTwo": note("The counter has a single one bit, or the stretch crosses such a number.",
                       DUKPT),
    "Boundary": note("The counter is next to a power of two, or one, or near the end.", DUKPT),
    "Depth": note("Chosen by the number of its one bits: the steps from the initial key.", DUKPT),
    "NumberBit": note("Single bits of the key serial number show which step takes which part of"
                      " it.", DUKPT),
    "StepMask": note("The initial key shows where the mask C0C0C0C000000000 is xored: in both"
                     " halves of the key, for the left half of the result alone.", DUKPT),
    "Unusable": note("The counter is zero or has more than ten one bits, and numbers no"
                     " transaction.", DUKPT),
    "NoTransaction": note("No terminal uses the number: its counter is zero or has more than ten"
                          " one bits. A host that gives it a key answers what no terminal can have"
                          " sent.", DUKPT),
    "Skips": note("The counters behind have more than ten one bits and are passed over.", DUKPT),
    "CounterNotZero": note("An initial key serial number has a counter of zero.", DUKPT),
    # Images of terminals.
    "BrokenImage": note("The bytes break one rule of an image.", OWN),
    "SpentTerminal": note("The terminal has used its last number.", OWN),
    "UsedNumber": note("A terminal takes no initial key serial number that it had before.", OWN),
    "EightLoads": note("The terminal had eight initial key serial numbers before its own, the most"
                       " that it keeps.", OWN),
    # MACs.
    "WholeBlocks": note("The message has whole blocks: CMAC takes the first subkey, and the retail"
                        " MAC fills nothing.", "that of the group"),
    "LastBlockInPart": note("The last block is not full: CMAC takes 80, zeros and the second"
                            " subkey, the retail MAC zeros.", "that of the group"),
    "TrailingZeros": note("The message ends as a padding does.", "that of the group"),
    "Subkeys": note("The key is chosen by the first bits before both doublings, each of which comes"
                    " back with 1B or does not.", "NIST SP 800-38B"),
    # PIN blocks.
    "ShortPan": note("The PAN has 12 digits, so that the account field has a zero more in front.",
                     PIN),
    "CheckDigit": note("The last digit of the PAN is not in the block.", PIN),
    "LeadingDigits": note("Digits before the twelve that count are not in the block.", PIN),
    "WrongPin": note("The PIN has fewer than 4 or more than 12 characters, or one that is no"
                     " digit.", PIN),
    "WrongPan": note("The PAN has fewer than 12 or more than 19 characters, or one that is no"
                     " digit.", PIN),
    "WrongFormat": note("The clear block is no PIN block of format 0.", PIN),
    "WrongPinLength": note("The second nibble is not the number of digits, or not 4 to 12.", PIN),
    "WrongPinDigit": note("A nibble of the PIN is above 9.", PIN),
    "WrongFiller": note("A nibble behind the PIN is not F.", PIN),
    "OtherPan": note("The PAN is not the one that the block was made with.", PIN),
    "Changed": note("A bit of the enciphered block is turned.", PIN),
    # Key blocks.
    "Padding": note("What stands behind the key: its length and its bytes.", BLOCK),
    "Header": note("The header fields: usage, algorithm, mode of use, key version and"
                   " exportability.", BLOCK),
    "HeaderField": note("A character of the header fields cannot be printed, or the number of"
                        " optional blocks is not two decimal digits.", BLOCK),
    "OptionalBlocks": note("Optional blocks, right or wrong.", BLOCK),
    "BlockLength": note("The length in the header is not that of the text, or none that a block may"
                        " have.", BLOCK),
    "BlockVersion": note("The version is not B.", BLOCK),
    "BlockHex": note("A character after the optional blocks is no hexadecimal digit.", BLOCK),
    "BlockMac": note("The MAC is not that of header, optional blocks and payload.", BLOCK),
    "Truncated": note("Something is cut off or added.", BLOCK),
    "Binding": note("The block is sealed with other keys or another initial vector than those of"
                    " version B.", BLOCK),
    "Payload": note("The key's length in the payload, and whether so many bytes are there.", BLOCK),
    # Frames.
    "NotAFrame": note("The bytes are no frame of this kind.", OWN),
    "NotCompared": note("What is not looked at here may be wrong.", OWN),
    "BadMac": note("The MAC is not that of the frame under this key.", OWN),
    "NotMine": note("The answer is to another number.", OWN),
    "WrongCode": note("No reply has this code, or no refusal this reason.", OWN),
    "WrongReversed": note("The number cannot be reversed under this one.", OWN),
    "TooLong": note("No frame is so long.", OWN),
}
