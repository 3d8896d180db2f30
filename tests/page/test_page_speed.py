"""The page has each change ready within a frame of the screen: derivations, and steps of the slider."""
from __future__ import annotations

import statistics
from dataclasses import dataclass
from typing import Sequence

from ..support.library.call_cases import Chance
from ..support.page.page_case import PageCase
from ..support.page.page_values import BASE, IKSN, upper
from ..support.standards.dukpt import serial_text

# A frame of a screen with 60 of them a second.
FRAME_MILLISECONDS = 16
STEPS = 100
# Steps that are slow are tried again, a few at once. Where none of them becomes quick in so many
# rounds, the page is slow, and not the machine.
TRIED_AT_ONCE, ROUNDS = 5, 20

# How long steps take, each from one value of a field to another: from the event to the page that is
# laid out, and to the one that is painted.
TIMED = """
const [field, steps, result] = arguments;
const element = document.getElementById(field);
const shown = () => document.getElementById(result).textContent;
const change = async (value) => {
  let began;
  // Of one frame the first and the last job; between them is the page's. Then the frame is painted.
  requestAnimationFrame(() => { began = performance.now(); });
  const event = performance.now();
  element.value = value;
  element.dispatchEvent(new Event("input", { bubbles: true }));
  await undefined;
  const direct = performance.now() - event;
  return new Promise((done) => {
    requestAnimationFrame(() => {
      document.body.getBoundingClientRect();
      const laid = direct + performance.now() - began;
      const channel = new MessageChannel();
      channel.port1.onmessage = () => done([laid, direct + performance.now() - began]);
      channel.port2.postMessage(0);
    });
  });
};
const times = [];
for (const [from, to] of steps) {
  await change(from);
  const before = shown();
  times.push(await change(to));
  if (!shown() || shown() === before) throw new Error(`nothing new is shown of ${to}`);
}
return times;"""


@dataclass
class Least:
    """Of a step the least times of its tries, in milliseconds."""

    laid: float
    painted: float


def slow_of(least: Sequence[Least]) -> list[int]:
    """Which steps are too slow: each has to be laid out within a frame, and a quarter of them, since
    they do much the same, painted by the end of the next one: painting is the browser's work."""
    late = [at for at, it in enumerate(least) if it.laid > FRAME_MILLISECONDS]
    unpainted = [at for at, it in enumerate(least) if it.painted > 2 * FRAME_MILLISECONDS]
    return late or (unpainted if 4 * len(unpainted) > 3 * len(least) else [])


class TestSpeed(PageCase):
    """By the clock, the least of a step's tries: what is slow by itself is slow at each of them;
    where other programs take the processor from the page, it is tried until they do not."""

    def assert_at_once(self, what: str, field: str, values: Sequence[str], result: str) -> None:
        """That each step from one of these values to the next is shown within a frame."""
        steps = list(zip(values, values[1:]))
        began = self.browser.thread_milliseconds()
        least = [Least(*it) for it in self.browser.run_async(TIMED, field, steps, result)]
        spent = (self.browser.thread_milliseconds() - began) / (2 * len(steps))
        laid, painted = (statistics.median(times) for times in zip(
            *((it.laid, it.painted) for it in least)))
        slow, tries, vain = slow_of(least), 0, 0
        while slow and vain < ROUNDS:
            tried = slow[:TRIED_AT_ONCE]
            tries += len(tried)
            again = self.browser.run_async(TIMED, field, [steps[at] for at in tried], result)
            for at, times in zip(tried, again):
                least[at] = Least(*map(min, times, (least[at].laid, least[at].painted)))
            count, slow = len(slow), slow_of(least)
            vain = 0 if len(slow) < count else vain + 1
        self.tells(f"{what}: median {laid:.1f} ms, {painted:.1f} ms with painting, {spent:.1f} ms"
                   f" of processor time; {tries} further tries")
        self.assertEqual(slow, [], f"{what}: {[(steps[at], least[at]) for at in slow[:3]]}")

    def test_derivation(self) -> None:
        """Changes of the number and of the key."""
        chance = Chance(self.chance)
        self.set(derive_bdk=BASE, derive_ksn=serial_text(IKSN + 1))
        numbers = list(map(serial_text, chance.usables(STEPS + 1)))
        self.assert_at_once("a number", "derive-ksn", numbers, "derive-pin-key")
        keys = list(map(upper, chance.keys(STEPS + 1)))
        self.assert_at_once("a key", "derive-bdk", keys, "derive-pin-key")

    def test_slider(self) -> None:
        """Places at random, of the whole life."""
        self.show("tree")
        self.set(tree_bdk=BASE, tree_ksn=serial_text(IKSN + 1))
        places = [str(self.chance.randrange(1, 1 << 20)) for _ in range(STEPS + 1)]
        self.assert_at_once("slider", "tree-slider", places, "tree-left")
