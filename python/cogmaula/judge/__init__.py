"""Judges what the nodes of a market recorded. docs/JUDGE.md says what is judged, and what that shows.

    from cogmaula.judge import judge

    print(judge("recordings").text())

Every answer of a service comes from the proved program `live`. This package feeds it, compares bytes, and finds the order.
Of valid recordings it makes a cluster file and a trace, which the proved program `market` judges.
"""

from .judging import judge
from .recording_faults import Fault, Faulty, NoRecording, NoTrace
from .tracing import Traced, judge_and_trace
from .verdict import Verdict

__all__ = ["Fault", "Faulty", "NoRecording", "NoTrace", "Traced", "Verdict", "judge", "judge_and_trace"]
