"""Reads the tables of a history in spans of milliseconds since 1970."""

from __future__ import annotations

import time
from dataclasses import dataclass, field
from typing import Any

from .database import Database


def milliseconds(seconds: float) -> int:
    """A time of the tables in milliseconds, in which the market tells it."""
    return round(seconds * 1000)


@dataclass
class Reader:
    """Reads a database, and notes how long each query takes."""

    database: Database
    took: dict[str, float] = field(default_factory=dict)

    @property
    def demand(self) -> str:
        """The expression of the demand of the bid of a row at the step `told.step`."""
        return self.database.demand

    def rows(self, name: str, query: str, *values: Any) -> list[tuple[Any, ...]]:
        """The rows of a query, which counts under a name. Raises DatabaseLost."""
        begun = time.perf_counter()
        found = self.database.read(query, values)
        self.took[name] = self.took.get(name, 0.0) + time.perf_counter() - begun
        return found

    def within(
        self, name: str, query: str, begin: int, end: int, *values: Any
    ) -> list[tuple[Any, ...]]:
        """The rows of a query whose last values are a begin and an end. Raises DatabaseLost."""
        return self.rows(name, query, *values, begin / 1000, end / 1000)
