// The player of scripts: a module of proved code beside the other, which has a heap of its own.
import { unpacked } from "./unpacked.js";

// How many bytes the text of a run may have, and how many the module's stack has, which begins at 0.
const ROOM = 1_048_576, STACK = 1_048_576;
// What a run's status says of its text, where that is no text of lines.
const KINDS = [null, "config", "script", "memory", "room"];
const WORDS = {
  memory: "the player has no memory left for this",
  room: `the lines have more than ${ROOM} bytes`,
};

let compiled;
// What the module exports, between two runs.
let player;

/** Opens the module out of its text, which is base64 of raw deflate. It is opened once. */
export async function loadPlayer(text) {
  compiled ??= await WebAssembly.compile(await unpacked(text));
}

/**
 * Plays a script under a configuration, both texts: what `dukpt run CONFIG SCRIPT` does, or with
 * `isJournal` what it does with `--journal`.
 *
 * Gives `lines`, what it prints, and `fault`, null or why there are no lines: its `kind` is `config`,
 * `script`, `memory` (the player's heap is full) or `room` (the lines are too many); `line` is the
 * line of the script that is no event, counted from 1, else 0; `words` say it.
 */
export function play(config, script, isJournal) {
  const { status, text, line } = run(encoded(config), encoded(script), isJournal);
  const kind = KINDS[status];
  if (!kind) return { lines: text.split("\n").slice(0, -1), fault: null };
  return { lines: [], fault: { kind, line, words: WORDS[kind] ?? text } };
}

const encoded = (text) => new TextEncoder().encode(text);

/** One call of the module. After it, none of what it was given or held stays in the memory. */
function run(config, script, isJournal) {
  player ??= new WebAssembly.Instance(compiled).exports;
  const memory = new Uint8Array(player.memory.buffer);
  const front = Number(player.__heap_base.value);
  const places = placed(front, config.length, script.length, ROOM, 8, 8);
  const [configAt, scriptAt, textAt, lengthAt, lineAt, end] = places;
  if (end > memory.length) return { status: KINDS.indexOf("memory"), text: "", line: 0 };
  memory.set(config, configAt);
  memory.set(script, scriptAt);
  try {
    player.arena_begin(BigInt(end));
    const status = player.dukpt_run(
      ...slice(configAt, config.length), ...slice(scriptAt, script.length), isJournal ? 1 : 0,
      ...slice(textAt, ROOM), BigInt(lengthAt), BigInt(lineAt));
    player.arena_end();
    const word = (at) => Number(new DataView(memory.buffer).getBigUint64(at, true));
    const text = new TextDecoder().decode(memory.subarray(textAt, textAt + word(lengthAt)));
    return { status, text, line: word(lineAt) };
  } catch (trap) {
    // What a trap left half done is not called again.
    player = undefined;
    throw trap;
  } finally {
    memory.fill(0, 0, STACK);
    memory.fill(0, front, end);
  }
}

/** The places of slices of these lengths behind an address, and the first address behind them. */
function placed(front, ...lengths) {
  const places = [front];
  for (const length of lengths) places.push(Math.ceil((places.at(-1) + length) / 16) * 16);
  return places;
}

const slice = (at, length) => [BigInt(at), BigInt(length)];
