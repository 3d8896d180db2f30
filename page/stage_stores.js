// Stores of the stage: the device steps of each write, and the one at which the power fails
// (docs/FORMATS.md, "Scripts").

const IN_MEMORY = 2;
const PUT_ON_DISK = 8;
const APPEND_ON_DISK = 4;

/** Which stores an event writes that comes to an end, in their order. A fault may stop it before. */
function writesOf({ command }, isJournal, isNewEntry) {
  if (command === "load" || command === "reverse") return ["cell"];
  if (command === "begin") return isJournal ? ["cell", "book"] : ["cell"];
  if (command === "down") return isJournal ? ["book"] : [];
  if (command === "up") return isNewEntry ? [isJournal ? "journal" : "log"] : [];
  return [];
}

// The outcomes of which a store was written.
const WRITTEN = new Set(["loaded", "sent", "reversing", "accepted", "judged undone", "done", "undone"]);

/** The stores of all ends, as far as they are armed. */
export class Stores {
  constructor({ isJournal, isOnDisk }) {
    this.isJournal = isJournal;
    this.isOnDisk = isOnDisk;
    this.armed = new Map();
  }

  stepsOfWrite(store) {
    if (store === "journal") return APPEND_ON_DISK;
    if (!this.isOnDisk) return IN_MEMORY;
    return store === "log" ? APPEND_ON_DISK : PUT_ON_DISK;
  }

  arm({ end, book, passes }) {
    this.armed.set(`${end}${book ?? ""}`, passes);
  }

  restart(end) {
    this.armed.delete(end);
    this.armed.delete(`${end} book`);
  }

  /** The writes of an event: each store with its steps, and the step at which the power failed. */
  writes(event, isWritten, isCut, isNewEntry) {
    const made = [];
    if (!isWritten && !isCut) return made;
    for (const store of writesOf(event, this.isJournal, isNewEntry || isCut)) {
      const steps = this.stepsOfWrite(store);
      const name = `${event.end}${store === "book" ? " book" : ""}`;
      const left = this.armed.get(name) ?? Infinity;
      made.push({ store, steps, failed: isCut && left < steps ? left + 1 : undefined });
      if (made.at(-1).failed) break;
      this.armed.set(name, left - steps);
    }
    return made;
  }
}

export const isWritten = ({ kind }) => WRITTEN.has(kind);
