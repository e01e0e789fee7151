"""From measured data to a decision, around the proved electronic market `market`.

Build or load a `Cluster`, `run` it, and look at the data frames of the `Run`:

    from cogmaula import Cluster, run

    day = run("examples/village.json")
    print(day.prices)

The proved program computes all prices, powers and accounts, and the package reads them. docs/PYTHON.md says what each call is for.
"""

from .calls import Trace, ask, bill, check, run, trace
from .chains import chain, parts_of, run_parts, whole_of
from .cluster import Basis, Cluster, Source
from .continuing import NoContinuation, continued, resumed
from .data import from_csv
from .errors import (
    Invalid,
    MarketError,
    NoPackage,
    NoProgram,
    OutOfMemory,
    Place,
    ProgramFault,
    Refused,
    TooLong,
    Unreadable,
)
from .explaining import Explanation, explain
from .figures import Figures, NoConnection
from .nodes import (
    Battery,
    Cogeneration,
    Concentrator,
    Freezer,
    HeatPump,
    Limited,
    Load,
    Manual,
    Node,
    Objective,
    Solar,
)
from .phases import Event, Events, Join, Leave, Phase, State, Tick
from .program import Program
from .report import history_page, report
from .runs import Run
from .states import Bid, DeviceState, Snapshot
from .study import study
from .texts import Account, Answer, Answers, Bill, GroupEnd, Move, PhaseEnd, Range, Report
from .varying import vary
from .version import __version__

__all__ = [
    "Account",
    "Answer",
    "Answers",
    "Basis",
    "Battery",
    "Bid",
    "Bill",
    "Cluster",
    "Cogeneration",
    "Concentrator",
    "DeviceState",
    "Event",
    "Events",
    "Explanation",
    "Figures",
    "Freezer",
    "GroupEnd",
    "HeatPump",
    "Invalid",
    "Join",
    "Leave",
    "Limited",
    "Load",
    "Manual",
    "MarketError",
    "Move",
    "NoConnection",
    "NoContinuation",
    "NoPackage",
    "NoProgram",
    "Node",
    "Objective",
    "OutOfMemory",
    "Phase",
    "PhaseEnd",
    "Place",
    "Program",
    "ProgramFault",
    "Range",
    "Refused",
    "Report",
    "Run",
    "Snapshot",
    "Solar",
    "Source",
    "State",
    "Tick",
    "TooLong",
    "Trace",
    "Unreadable",
    "__version__",
    "ask",
    "bill",
    "chain",
    "check",
    "continued",
    "explain",
    "from_csv",
    "history_page",
    "parts_of",
    "report",
    "resumed",
    "run",
    "run_parts",
    "study",
    "trace",
    "vary",
    "whole_of",
]
