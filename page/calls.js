// The calls of the module, a function each. Keys, numbers and blocks are bytes (Uint8Array).
// Each throws the Fault of its status; docs/calls.txt has their faults in order.
import { STATUS } from "./call_table.js";
import { counterOf, whyUnusable } from "./counters.js";
import { Fault } from "./faults.js";
import { call } from "./module.js";

const one = (...given) => call(...given)[0];

/** What a job gives; where no transaction has the number of it, its Fault says why. */
function withWhy(ksn, job) {
  try {
    return job();
  } catch (fault) {
    if (!(fault instanceof Fault) || fault.number !== STATUS.NOT_USABLE) throw fault;
    throw new Fault(fault.number, whyUnusable(counterOf(ksn)));
  }
}

/** The initial key (16 bytes) of an initial key serial number (10), under the base derivation key. */
export const initialKey = (bdk, iksn) => one("initial_key", bdk, iksn);

/** The transaction key (16 bytes) of a key serial number (10), under the initial key (16). */
export const deriveFromInitial = (initial, ksn) => one("derive_from_initial", initial, ksn);

/** The variants of a transaction key: for PINs, MACs of requests and MACs of replies. */
export const pinKey = (key) => one("pin_key", key);
export const requestKey = (key) => one("request_key", key);
export const responseKey = (key) => one("response_key", key);

/** The keys of a transaction for data: of requests, and of responses. */
export const requestDataKey = (key) => one("request_data_key", key);
export const responseDataKey = (key) => one("response_data_key", key);

/** Throws NotUsable where no transaction has this key serial number (10 bytes). */
export const checkUsable = (ksn) => withWhy(ksn, () => call("check_usable", ksn));

/** The key serial number (10 bytes) that a terminal uses after this one (10). Throws Spent. */
export const nextNumber = (ksn) => one("next_number", ksn);

/** The check value (3 bytes), and that by CMAC (5), of a key of 16 or 24 bytes. */
export const checkValue = (key) => one("check_value", key);
export const cmacCheckValue = (key) => one("cmac_check_value", key);

/** The image (431 bytes) of a terminal whose next key serial number is this one (10 bytes). */
export const registersAt = (initial, ksn) => withWhy(ksn, () => one("registers_at", initial, ksn));

/** The key serial number (10 bytes) that a terminal with this image uses next. */
export const numberOf = (image) => one("registers_number", image);

/** A terminal's next transaction: the image behind it, its key and its key serial number. */
export function take(image) {
  const [next, key, ksn] = call("registers_next", image);
  return { image: next, key, ksn };
}

/** A block of 8 bytes, enciphered or deciphered under a key of 16 or 24 bytes. */
export const encipher = (key, block) => one("tdes_encrypt", key, block);
export const decipher = (key, block) => one("tdes_decrypt", key, block);

/** Whole blocks by CBC, under a key of 16 or 24 bytes and from an initial vector (8 bytes). */
export const encipherChain = (key, iv, bytes) => one("cbc_encrypt", key, iv, bytes);
export const decipherChain = (key, iv, bytes) => one("cbc_decrypt", key, iv, bytes);

/** The CMAC (8 bytes) under a key of 16 or 24 bytes; the retail MAC (8) under one of 16. */
export const cmac = (key, message) => one("cmac", key, message);
export const retailMac = (key, message) => one("retail_mac", key, message);

/** The PIN block (8 bytes) of the ASCII digits of a PIN and a PAN. */
export const pinBlock = (pin, pan) => one("pin_block", pin, pan);

/** The ASCII digits of the PIN in a PIN block (8 bytes) under a PAN. */
export const pinOfBlock = (block, pan) => one("pin_of_block", block, pan);

/** The characters of a key block: header of 7 characters, keys of 16 or 24 bytes. */
export const wrap = (kbpk, header, key, padding) => one("wrap", kbpk, header, key, padding);

/** The header (7 characters) and the key (16 or 24 bytes) of a key block. */
export function unwrap(kbpk, text) {
  const [header, key] = call("unwrap", kbpk, text);
  return { header, key };
}

/** How many bytes the frame has with which these begin. */
export const frameLength = (bytes) => one("frame_length", bytes);

/** The frame of a request, of an accepted reply, of a refusal. */
export const paymentRequest = (key, ksn, pan, pin, amount) =>
  one("payment_request", key, ksn, pan, pin, amount);
export const reply = (key, ksn, code) => one("request_reply", key, ksn, code);
export const refusal = (ksn, reason) => one("request_refusal", ksn, reason);

/** The fields of a request. */
export function readRequest(frame) {
  const [ksn, pan, amount, block, mac] = call("read_request", frame);
  return { ksn, pan, amount, block, mac };
}

/** Throws BadMac where a request has another MAC under its transaction key. */
export const checkRequest = (key, frame) => call("check_request", key, frame);

/** The ASCII digits of the PIN in a request, under its transaction key. */
export const requestPin = (key, frame) => one("request_pin", key, frame);

/** The fields of an accepted reply, and those of a refusal. */
export function readReply(frame) {
  const [ksn, code] = call("read_reply", frame);
  return { ksn, code };
}
export function readRefusal(frame) {
  const [ksn, reason] = call("read_refusal", frame);
  return { ksn, reason };
}

/** Throws NotMine or BadMac where a reply is not that of the key serial number's payment. */
export const checkReply = (key, ksn, frame) => call("check_reply", key, ksn, frame);

/** The fields of a reversal, and those of the reply to one. */
export function readReversal(frame) {
  const [ksn, reversed, mac] = call("read_reversal", frame);
  return { ksn, reversed, mac };
}
export function readReversalReply(frame) {
  const [ksn, reversed, state] = call("read_reversal_reply", frame);
  return { ksn, reversed, state };
}

/** Throws BadMac where a reversal has another MAC under its transaction key. */
export const checkReversal = (key, frame) => call("check_reversal", key, frame);

/** Throws NotMine or BadMac where a reply is not that of the reversal with these two numbers. */
export const checkReversalReply = (key, ksn, reversed, frame) =>
  call("check_reversal_reply", key, ksn, reversed, frame);
