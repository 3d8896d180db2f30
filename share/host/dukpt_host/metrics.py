"""What is counted, and how Prometheus is told."""
from __future__ import annotations

from bisect import bisect_left
from collections import Counter
from typing import Callable, Iterable, Iterator, Mapping, Sequence, TypeVar

from prometheus_client import CollectorRegistry, generate_latest
from prometheus_client.core import CounterMetricFamily, GaugeMetricFamily, HistogramMetricFamily
from prometheus_client.metrics_core import Metric
from prometheus_client.registry import Collector

from .frames import SAID, words

SECONDS = (.0005, .001, .002, .005, .01, .02, .05, .1, .2, .5, 1, 2, 5, 10)
FRAMES = (1, 2, 5, 10, 20, 50, 100, 200, 500, 1024)
# Why connections end, and why clients are not let in.
CLOSED = ("client", "no frame", "cut frame", "unfinished frame", "slow reader", "idle", "restart",
          "unknown", "not serving")
REFUSED = ("too many", "not serving", "no TLS", "gone")


T = TypeVar("T")


class Histogram:
    """How many values are up to each bound."""

    def __init__(self, bounds: Sequence[float]) -> None:
        self.bounds = bounds
        self.counts = [0] * (len(bounds) + 1)
        self.sum = 0.0

    def add(self, value: float, times: int = 1) -> None:
        self.counts[bisect_left(self.bounds, value)] += times
        self.sum += value * times

    def family(self, name: str, text: str) -> Metric:
        total, buckets = 0, []
        for bound, count in zip([*map(str, self.bounds), "+Inf"], self.counts):
            total += count
            buckets.append((bound, total))
        found = HistogramMetricFamily(name, text)
        found.add_metric([], buckets, self.sum)
        return found


class Metrics(Collector):
    """All counts. `frames` are answered, unanswered, or wait still."""

    def __init__(self) -> None:
        # What the service counts of itself.
        self.of_service: Callable[[], Iterable[Metric]] = lambda: ()
        self.answers = from_zero(SAID)
        self.frames = self.unanswered = self.dropped = self.opened = 0
        self.connections: Callable[[], int] = lambda: 0
        self.waiting: Callable[[], int] = lambda: 0
        self.is_serving = False
        self.closed, self.refused = from_zero(CLOSED), from_zero(REFUSED)
        self.seconds, self.groups = Histogram(SECONDS), Histogram(FRAMES)
        self.deciding = Histogram(SECONDS)
        self.registry = CollectorRegistry()
        self.registry.register(self)

    def text(self) -> bytes:
        return bytes(generate_latest(self.registry))

    def collect(self) -> Iterator[Metric]:
        answers = CounterMetricFamily(
            "dukpt_answers", "Answers by kind and code, reason or state.", labels=["kind", "says"])
        for said, count in self.answers.items():
            answers.add_metric(words(said), count)
        yield answers
        yield self.seconds.family("dukpt_answer_seconds", "From a frame's arrival to its answer.")
        yield self.groups.family("dukpt_group_frames", "Frames given to the service at once.")
        yield self.deciding.family("dukpt_group_seconds", "From a group to its answers, syncs too.")
        for name, text, value in self.totals():
            yield CounterMetricFamily(name, text, value=value)
        yield by_word("dukpt_connections_closed", "Connections that ended, by why.", self.closed)
        yield by_word("dukpt_connections_refused", "Clients not let in, by why.", self.refused)
        for name, text, level in self.levels():
            yield GaugeMetricFamily(name, text, value=level)
        yield from self.of_service()

    def totals(self) -> Iterator[tuple[str, str, int]]:
        yield "dukpt_frames", "Frames that came.", self.frames
        yield "dukpt_frames_unanswered", "Frames that have no answer.", self.unanswered
        yield "dukpt_answers_dropped", "Answers whose connection had ended.", self.dropped
        yield "dukpt_connections_opened", "Connections that came.", self.opened

    def levels(self) -> Iterator[tuple[str, str, float]]:
        yield "dukpt_serving", "1 while the service answers.", int(self.is_serving)
        yield "dukpt_connections", "Connections now.", self.connections()
        yield "dukpt_frames_waiting", "Frames without an answer now.", self.waiting()


def from_zero(words_of: Iterable[T]) -> Counter[T]:
    """A count of each, from 0: Prometheus sees no increase where a count begins at 1."""
    return Counter(dict.fromkeys(words_of, 0))


def by_word(name: str, text: str, counts: Mapping[str, int]) -> Metric:
    found = CounterMetricFamily(name, text, labels=["why"])
    for word, count in counts.items():
        found.add_metric([word], count)
    return found
