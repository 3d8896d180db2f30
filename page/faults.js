// Why a call has no result, in the words of the page.
import { FAULT_NAMES } from "./call_table.js";

const WORDS = {
  Length: "a length that the call does not take",
  NotInitial: "the counter of an initial key serial number is not zero",
  NotUsable: "no transaction has this number: its counter is zero or has more than ten one bits",
  Spent: "the terminal is spent: no number is left",
  NotAnImage: "these bytes are no image of a terminal",
  IksnSpent: "the terminal has or had this initial key serial number",
  LoadsSpent: "the terminal had eight initial key serial numbers before its own",
  PinLength: "a PIN has 4 to 12 digits",
  PinDigit: "a PIN has decimal digits alone",
  PanLength: "a PAN has 12 to 19 digits",
  PanDigit: "a PAN has decimal digits alone",
  NotAPinBlock: "under this key and PAN the block holds no PIN of format 0",
  BlockLength: "the text has not 80 to 512 characters, a multiple of 8, as characters 1 to 4 say",
  BlockVersion: "character 0 is not B: no other version is opened",
  BlockHeaderField:
    "a header field cannot be printed, or the number of optional blocks is not decimal",
  BlockOptionalBlock:
    "the optional blocks do not follow as the header says, or leave no payload and MAC",
  BlockHex: "this is no hexadecimal digit",
  BlockMac: "the MAC is another: the block was changed, or the protection key is another",
  BlockPayload: "the payload is no TDES key of 16 or 24 bytes",
  BlockPadLength: "2 bytes, key and padding do not fill blocks of 8 bytes, or are too long",
  NotARequest: "these bytes are no request",
  NotAReply: "these bytes are no accepted reply",
  NotARefusal: "these bytes are no refusal",
  NotACode: "a code is 00, 14, 30, 51 or 55",
  NotAReason: "a reason is 1 to 6",
  NotMine: "the reply is to another key serial number",
  BadMac: "the MAC is another: the frame was changed, or the key is another",
  PartOfFrame: "fewer than the two bytes of a frame's length are left",
  TooLong: "a length above 62 stands where a frame begins",
  NotReversed: "the number cannot reverse that one",
  NotAReversal: "these bytes are no reversal",
  NotAState: "a state is 0 or 1",
  NotAReversalReply: "these bytes are no reply to a reversal",
  OtherUsage: "the key has another usage, or is no TDES key",
  OtherKeyLength: "the key has another length",
  NoOptionalBlock: "the block has no optional block with this id",
  NotAModule: "these bytes are no image of a security module",
  WrongUse: "the key in the block is for another use",
  PrefixTaken: "the module has a base derivation key for this prefix",
  SlotsFull: "the module has eight base derivation keys",
  ZoneTaken: "the module has a zone key",
  NoZone: "the module has no zone key",
  NotACard: "a card has no PAN or no PIN",
  NotSettled: "these bytes say nothing that was settled",
  NoKeySet: "the module has no base derivation key for this number",
};

/** Why there is no result. `number` is the status of a call, or 0 for a fault that the page finds. */
export class Fault extends Error {
  constructor(number, words = WORDS[FAULT_NAMES[number - 1]] ?? `status ${number}`) {
    super(words);
    this.number = number;
    this.name = FAULT_NAMES[number - 1] ?? "Page";
  }
}
