"""Clusters at the limits of the market, through the threads of each command: texts by checks/oracle/oracle.py, traces judged."""

from checks.drive.built import Hangs, ended
from checks.make.limits import MOST, files
from checks.oracle.oracle import due_of, envelope, why_wrong

SECONDS = 120


def why_not(program, command, text):
    try:
        return why_wrong(command, text, ended(program, [command], text, SECONDS), due_of(command, text))
    except Hangs as fault:
        return str(fault)


def tried(program, everything):
    for name, file, commands in files(everything):
        for command in commands:
            text = envelope(file, b"0\n%d\n-%d\n" % (MOST, MOST)) if command == "ask" else file
            yield f"{command} of {name}", why_not(program, command, text)
        if "trace" in commands:
            trace = ended(program, ["trace"], file, SECONDS)[1]
            yield f"check of {name}", why_not(program, "check", envelope(file, trace))
            yield f"check of {name}, without the last line", why_not(program, "check", envelope(file, trace[: trace.rindex(b"moves")]))
