"""Pictures for pages: a small run with its tree, how a market clears, a bill, and the answers to targets."""

from .answers import draw_answers, draw_bill
from .clearing import draw_clearing
from .run_picture import draw_run
from .saving import save

__all__ = ["draw_answers", "draw_bill", "draw_clearing", "draw_run", "save"]
