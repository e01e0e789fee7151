"""Tariffs of suppliers: what a household is billed by the month, in a currency, with prices by the time of use, fees and VAT.

A tariff is outside the market. It bills what a run says that was taken and delivered, and no price of the run.
"""

from __future__ import annotations

from collections.abc import Mapping, Sequence
from dataclasses import dataclass
from datetime import datetime, time
from typing import TYPE_CHECKING

from .data_frames import pandas

if TYPE_CHECKING:
    from pandas import DataFrame, DatetimeIndex, Index, Series

COLUMNS = ["bought_kWh", "sold_kWh", "bought", "sold", "fee", "vat", "total"]


@dataclass(frozen=True)
class Hours:
    """Hours of the day with prices of their own: from `begin` on and before `end`, over midnight if `end` is not after `begin`.

    buy, sell: the prices, None for those of the tariff
    days:      of the week, 0 for Monday; all if none is named
    """

    begin: time
    end: time
    buy: float | None = None
    sell: float | None = None
    days: tuple[int, ...] = tuple(range(7))

    def holds(self, moment: datetime) -> bool:
        """Whether a moment lies in these hours, by the clock of its zone. A day is that on which the moment lies."""
        at = moment.time()
        inside = self.begin <= at < self.end if self.begin < self.end else at >= self.begin or at < self.end
        return inside and moment.weekday() in self.days


@dataclass(frozen=True)
class Tariff:
    """A tariff. All prices are without VAT.

    currency:  the unit of money, such as EUR
    buy, sell: what a kilowatt-hour costs and earns: a number, or a series by time, each of which holds until the next
    hours:     hours with prices of their own, of which the first that holds counts
    fee:       what a household pays by the month, also for a part of one
    vat:       the percent that are paid on what is bought and on the fee; what is sold has none
    """

    currency: str
    buy: float | Series
    sell: float | Series
    hours: Sequence[Hours] = ()
    fee: float = 0.0
    vat: float = 0.0

    def prices(self, index: DatetimeIndex) -> DataFrame:
        """The prices at the times of an index: a frame with the columns buy and sell. It needs pandas.

        Raises ValueError if a series has no price of the first time.
        """
        pd = pandas()
        frame = pd.DataFrame({"buy": self._over(self.buy, index), "sell": self._over(self.sell, index)}, index=index)
        for hours in reversed(self.hours):
            inside = [hours.holds(time) for time in index]
            for name, price in (("buy", hours.buy), ("sell", hours.sell)):
                if price is not None:
                    frame.loc[inside, name] = price
        return frame

    def _over(self, price: float | Series, index: DatetimeIndex) -> float | Series:
        """A price at the times of an index."""
        pd = pandas()
        if not isinstance(price, pd.Series):
            return float(price)
        found = price.astype(float).reindex(index, method="ffill")
        if found.isna().any():
            raise ValueError(f"the series of prices begins at {price.index[0]}, behind the first time, {index[0]}")
        return found

    def bill(self, power: DataFrame) -> DataFrame:
        """The bill of each household and month, a row each: energies in kWh, and amounts in the currency.

        power: watts that each household takes from the supplier, below 0 if it delivers: a column for each, and a row for each interval, with
               a DatetimeIndex that has a frequency

        `total` is bought less sold, and the fee and the VAT. Amounts are not rounded. Raises ValueError if the index has no frequency.
        """
        pd = pandas()
        freq = power.index.freq or pd.tseries.frequencies.to_offset(power.index.inferred_freq)
        if freq is None:
            raise ValueError("the rows of the powers are not equally far apart: take run.series()")
        kwh = power.astype(float) * (pd.Timedelta(freq).total_seconds() / 3_600_000)
        prices, months = self.prices(power.index), power.index.strftime("%Y-%m")
        rows = {name: self._rows(kwh[name], prices, months) for name in kwh.columns}
        return pd.concat(rows, names=["household", "month"])

    def _rows(self, kwh: Series, prices: DataFrame, months: Index) -> DataFrame:
        """The months of a household."""
        taken, given = kwh.clip(lower=0), -kwh.clip(upper=0)
        parts = {"bought_kWh": taken, "sold_kWh": given, "bought": taken * prices.buy, "sold": given * prices.sell}
        frame = pandas().DataFrame(parts).groupby(months).sum()
        frame["fee"] = self.fee
        frame["vat"] = (frame.bought + frame.fee) * self.vat / 100
        frame["total"] = frame.bought - frame.sold + frame.fee + frame.vat
        return frame[COLUMNS]


def households(power: DataFrame, members: Mapping[str, Sequence[str]]) -> DataFrame:
    """The power of each household, from that of its devices: a frame with a column for each.

    power:   watts, a column for each device, such as `run.series()`
    members: the devices of each household; a device that is no member counts as 0

    Raises KeyError if a device has no column.
    """
    return pandas().DataFrame({name: power[list(them)].fillna(0).sum(axis=1) for name, them in members.items()}, index=power.index)
