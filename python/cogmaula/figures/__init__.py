"""Figures of a run: what it cost, whether it kept its limits, who flexed, and what the same would have cost without the market.

`figures.finding` finds them. It needs numpy, and this file does not.
"""

from .figure_values import BatteryUse, Figures, NoConnection, Peak

__all__ = ["BatteryUse", "Figures", "NoConnection", "Peak"]
