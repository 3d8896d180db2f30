// The calls of the module and their faults. Made of library/calls.toml by `tools/library --make`.

/** An argument of a call that it reads: a slice or a number. */
export const READ = "read";
/** A slice that a call changes in place. */
export const CHANGED = "changed";
/** How many bytes a call writes of the slice before it, which has room for the most. */
export const COUNT = "count";
/** Another number that a call writes. */
export const WORD = "word";

/**
 * The arguments of each call, in their order. A slice that it writes stands as its length: so many
 * bytes, or so many for each so many of one of the slices and numbers that the call is given.
 */
export const CALLS = {
  initial_key: [READ, READ, 16],
  derive: [READ, READ, 16],
  derive_many: [READ, READ, { size: 16, each: 10, of: 1 }],
  derive_from_initial: [READ, READ, 16],
  pin_key: [READ, 16],
  request_key: [READ, 16],
  response_key: [READ, 16],
  request_data_key: [READ, 16],
  response_data_key: [READ, 16],
  check_usable: [READ],
  next_number: [READ, 10],
  check_value: [READ, 3],
  cmac_check_value: [READ, 5],
  registers_load: [READ, READ, 431],
  registers_at: [READ, READ, 431],
  registers_number: [READ, 10],
  registers_next: [READ, 431, 16, 10],
  registers_reload: [READ, READ, READ, 431],
  tdes_encrypt: [READ, CHANGED],
  tdes_decrypt: [READ, CHANGED],
  cbc_encrypt: [READ, READ, CHANGED],
  cbc_decrypt: [READ, READ, CHANGED],
  cmac: [READ, READ, 8],
  retail_mac: [READ, READ, 8],
  pin_block: [READ, READ, 8],
  pin_of_block: [READ, READ, 12, COUNT],
  wrap: [READ, READ, READ, READ, 512, COUNT],
  wrap_with: [READ, READ, READ, READ, READ, 512, COUNT],
  unwrap: [READ, READ, 7, 24, COUNT],
  unwrap_for: [READ, READ, READ, READ, 24],
  unwrap_optional: [READ, READ, READ, 251, COUNT],
  payment_request: [READ, READ, READ, READ, READ, 64, COUNT],
  read_request: [READ, 10, 19, COUNT, WORD, 8, 8],
  check_request: [READ, READ],
  check_requests: [READ, READ, { size: 1, each: 64, of: 1 }],
  request_pin: [READ, READ, 12, COUNT],
  request_reply: [READ, READ, READ, 64, COUNT],
  request_refusal: [READ, READ, 64, COUNT],
  read_reply: [READ, 10, 2],
  read_refusal: [READ, 10, WORD],
  check_reply: [READ, READ, READ],
  reversal_request: [READ, READ, READ, 64, COUNT],
  read_reversal: [READ, 10, 10, 8],
  check_reversal: [READ, READ],
  reversal_reply: [READ, READ, READ, READ, 64, COUNT],
  read_reversal_reply: [READ, 10, 10, WORD],
  check_reversal_reply: [READ, READ, READ, READ],
  module_new: [READ, 4706],
  module_load_bdk: [READ, READ, CHANGED],
  module_load_zone: [READ, CHANGED],
  host_judge: [READ, READ, READ, { size: 64, each: 64, of: 2 }],
  host_answer: [READ, READ, { size: 64, each: 64, of: 1 }],
  frame_length: [READ, WORD],
};

/** The name of each fault, in the order of the numbers from 1. */
export const FAULT_NAMES = [
  "Length", "NotInitial", "NotUsable", "Spent", "NotAnImage", "IksnSpent", "LoadsSpent",
  "PinLength", "PinDigit", "PanLength", "PanDigit", "NotAPinBlock", "BlockLength", "BlockVersion",
  "BlockHeaderField", "BlockOptionalBlock", "BlockHex", "BlockMac", "BlockPayload",
  "BlockPadLength", "NotARequest", "NotAReply", "NotARefusal", "NotACode", "NotAReason", "NotMine",
  "BadMac", "PartOfFrame", "TooLong", "NotReversed", "NotAReversal", "NotAState",
  "NotAReversalReply", "OtherUsage", "OtherKeyLength", "NoOptionalBlock", "NotAModule", "WrongUse",
  "PrefixTaken", "SlotsFull", "ZoneTaken", "NoZone", "NotACard", "NotSettled", "NoKeySet",
];

/** The number of each fault. */
export const STATUS = {
  LENGTH: 1, NOT_INITIAL: 2, NOT_USABLE: 3, SPENT: 4, NOT_AN_IMAGE: 5, IKSN_SPENT: 6,
  LOADS_SPENT: 7, PIN_LENGTH: 8, PIN_DIGIT: 9, PAN_LENGTH: 10, PAN_DIGIT: 11, NOT_A_PIN_BLOCK: 12,
  BLOCK_LENGTH: 13, BLOCK_VERSION: 14, BLOCK_HEADER_FIELD: 15, BLOCK_OPTIONAL_BLOCK: 16,
  BLOCK_HEX: 17, BLOCK_MAC: 18, BLOCK_PAYLOAD: 19, BLOCK_PAD_LENGTH: 20, NOT_A_REQUEST: 21,
  NOT_A_REPLY: 22, NOT_A_REFUSAL: 23, NOT_A_CODE: 24, NOT_A_REASON: 25, NOT_MINE: 26, BAD_MAC: 27,
  PART_OF_FRAME: 28, TOO_LONG: 29, NOT_REVERSED: 30, NOT_A_REVERSAL: 31, NOT_A_STATE: 32,
  NOT_A_REVERSAL_REPLY: 33, OTHER_USAGE: 34, OTHER_KEY_LENGTH: 35, NO_OPTIONAL_BLOCK: 36,
  NOT_A_MODULE: 37, WRONG_USE: 38, PREFIX_TAKEN: 39, SLOTS_FULL: 40, ZONE_TAKEN: 41, NO_ZONE: 42,
  NOT_A_CARD: 43, NOT_SETTLED: 44, NO_KEY_SET: 45,
};
