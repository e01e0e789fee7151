"""Why a recipe or a table cannot be used. A module of its own, since recipes and tables both raise them."""

from __future__ import annotations

from ..errors import MarketError


class RecipeFault(MarketError):
    """Why a recipe cannot be used, with its file in front."""


class WordsFault(RecipeFault):
    """A table of a recipe lacks a word, or has one that is not known. The table is the subject of the message: `has no file`."""


class TableFault(MarketError):
    """Why a table cannot be used, with its file, line and column in front."""
