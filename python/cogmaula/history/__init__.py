"""The history of a live market in tables: what its broker tells, kept in SQLite or PostgreSQL. docs/OPERATE.md has the tables.

    from cogmaula.history import Keeper, open_database

    Keeper(broker_settings, open_database("sqlite:///market.db"), print).run()
"""

from .database import Database, open_database
from .keeper import Keeper
from .rows import Row, rows_of

__all__ = ["Database", "Keeper", "Row", "open_database", "rows_of"]
