// Whole frames: where one ends, what of it the MAC is over, and what is wrong with one.
import { STATUS } from "./call_table.js";
import * as calls from "./calls.js";
import { Fault } from "./faults.js";
import { damageOfFrame } from "./frame_parts.js";

/** The bytes of a MAC, the last ones of a frame; it is over all of the contents before them. */
export const MAC = 8;
const CONTENTS = 2;

/** The bytes that the MAC of a frame is made of. */
export const textOfMac = (frame) => frame.slice(CONTENTS, frame.length - MAC);

/** What is wrong with a frame at the front of `rest`, of which `count` bytes are there. */
export function damageAt(rest, count) {
  try {
    const length = calls.frameLength(rest);
    if (length > count) {
      return [`the length says ${length - 2} bytes of contents, and ${count - 2} are there`, 0, 1];
    }
    return damageOfFrame(rest.slice(0, length));
  } catch (fault) {
    if (!(fault instanceof Fault)) throw fault;
    return [fault.message, 0, fault.number === STATUS.PART_OF_FRAME ? 0 : 1];
  }
}
