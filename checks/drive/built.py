"""Starts the built program, for the checks that start it often."""

import subprocess

SECONDS = 60


class Hangs(Exception):
    """The program had not ended in time."""


def ended(program, arguments, text, seconds=SECONDS):
    """The exit status of a run on a standard input, and what it wrote."""
    try:
        done = subprocess.run([program, *arguments], input=text, stdout=subprocess.PIPE, stderr=subprocess.DEVNULL, timeout=seconds)
    except subprocess.TimeoutExpired:
        raise Hangs(f"{' '.join(arguments)} had not ended after {seconds} seconds") from None
    return done.returncode, done.stdout


def differs(found, due):
    """What is wrong with the status and the answers of a run, or None."""
    def told(message):
        return f"{message[0]} and answers that end with {message[1][-60:].hex()}"

    return None if found == due else f"it ends with {told(found)}, and due is {told(due)}"


def sampled(things, most):
    """So many of a list, evenly over it; all if there are no more."""
    things = list(things)
    if len(things) <= most:
        return things
    return [things[at * (len(things) - 1) // (most - 1)] for at in range(most)]
