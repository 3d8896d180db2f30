// The panel "Frames and files", its logs: the used numbers.
import { made, tableOf } from "./fields.js";
import { RECORD, countInLog } from "./file_parts.js";
import { usableNote } from "./frames.js";
import { hex } from "./hexadecimal.js";
import { earlierOf, numbersAt, repeatsIn } from "./numbers.js";

const NUMBER = 1;

function logRow(number, record, earlier) {
  const notes = [usableNote(number)];
  if (earlier !== undefined) notes.push(`also in record ${earlier}`);
  const row = made("tr", "", { "data-record": record });
  row.append(made("td", record, { class: "record" }), made("td", hex(number), { class: "number" }));
  row.append(made("td", notes.filter(Boolean).join("; "), { class: "meaning" }));
  return row;
}

/** What is shown of a right log: at most so many of its numbers. */
export function logParts(log, most) {
  const records = log.length / RECORD;
  const count = countInLog(log);
  const { numbers } = numbersAt(log, { count, length: RECORD, place: NUMBER });
  const words = [
    `Log of ${records} records: ${count} used numbers, room for ${records - count} more.`,
  ];
  const repeated = repeatsIn(numbers);
  if (repeated) words.push(`Repeated numbers: ${repeated}.`);
  if (count > most) words.push(`The first ${most} are shown.`);
  if (count === 0) return [made("p", words.join(" "))];
  const earlier = earlierOf(numbers, most);
  const rows = Array.from({ length: Math.min(count, most) }, (_, record) => {
    const at = RECORD * record + NUMBER;
    return logRow(log.slice(at, at + 10), record, earlier.get(record));
  });
  const names = ["record", "used number", "note"];
  return [made("p", words.join(" ")),
    tableOf(names, (it) => it.append(...rows), "The used numbers of the log")];
}
