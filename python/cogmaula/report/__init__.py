"""The report of a run, and of a day of a live market: one page that shows prices, loads against limits, powers and bills."""

from .bills import Currency, Span, bills_of, frame_of
from .flexibility import Flexibility, flexibility_of
from .history_day import history_page
from .kept_limits import Group, Violation, groups_of
from .cluster_report import report

__all__ = ["Currency", "Flexibility", "Group", "Span", "Violation", "bills_of", "flexibility_of", "frame_of", "groups_of", "history_page", "report"]
