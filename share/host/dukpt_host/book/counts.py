"""What is counted of the book."""
from __future__ import annotations

from dataclasses import dataclass, field
from typing import Iterator

from prometheus_client.core import CounterMetricFamily, GaugeMetricFamily
from prometheus_client.metrics_core import Metric

from ..metrics import SECONDS, Histogram


@dataclass
class Counts:
    """`standbys` is how many are synchronous, as it was seen last; `lost` counts the groups of
    which nothing is known."""

    seconds: Histogram = field(default_factory=lambda: Histogram(SECONDS))
    standbys: int = 0
    lanes: int = 0
    lost: int = 0

    def collect(self) -> Iterator[Metric]:
        yield self.seconds.family("dukpt_book_seconds", "From a group to the database to its end.")
        yield CounterMetricFamily("dukpt_book_groups_lost", "Groups whose end is not known.",
                                  value=self.lost)
        yield GaugeMetricFamily("dukpt_book_connections", "Connections to the database that serve.",
                                value=self.lanes)
        yield GaugeMetricFamily("dukpt_book_standbys", "Synchronous standbys.", value=self.standbys)
