"""What a trial finds, line by line, and the words of the pages that it follows."""

import re
import sys
import time


class Failed(Exception):
    """A part of a trial has failed. The message says why."""


class Found:
    """Prints a line for each thing that was tried, and counts those that failed."""

    def __init__(self):
        self.failed = 0

    def __call__(self, what, is_right, more=""):
        """Notes whether something was as it should be."""
        self.failed += not is_right
        print(f"{'ok' if is_right else 'failed'}: {what}{': ' if more else ''}{more}", flush=True)

    def part(self, what, work):
        """Does a part, which gives the words of what was seen. What it raises is a failure. Gives whether there was none."""
        try:
            more = work()
        except Failed as error:
            self(what, False, str(error))
        except (OSError, ValueError, LookupError) as error:
            self(what, False, f"{type(error).__name__} {error}")
        else:
            self(what, True, more)
            return True
        return False


def require(is_right, why):
    """Raises Failed with these words unless something is right."""
    if not is_right:
        raise Failed(why)


def wait_for(wanted, seconds, why):
    """Waits until a call gives something, and gives that. Raises Failed with these words after so many seconds."""
    end = time.monotonic() + seconds
    while not (found := wanted()):
        require(time.monotonic() < end, f"{why} after {seconds} s")
        time.sleep(0.1)
    return found


def need(*files):
    """Ends the script if a program or a file is missing. Each is a test's result and what to do."""
    lacking = [do for is_there, do in files if not is_there]
    for line in lacking:
        print(f"missing: {line}", file=sys.stderr)
    if lacking:
        sys.exit(1)


def steps_of(page, heading):
    """The commands of each step of a section, by its number: the first indented lines below `**N. Title.**`."""
    section = page.split(f"\n## {heading}\n", 1)[1].split("\n## ", 1)[0]
    _, *steps = re.split(r"^\*\*([0-9]+)\. ", section, flags=re.MULTILINE)
    found = {}
    for number, text in zip(steps[::2], steps[1::2], strict=True):
        block = re.search(r"^    .*(\n    .*)*", text, re.MULTILINE)
        found[int(number)] = "" if block is None else re.sub("^    ", "", block[0], flags=re.MULTILINE)
    return found


def block_of(page, first):
    """The indented block of a page that begins with this line."""
    found = re.search(rf"^    {re.escape(first)}\n(?:    .*\n|\n(?=    ))+", page, re.MULTILINE)
    require(found, f"the page has no block {first}")
    return re.sub("^    ", "", found[0], flags=re.MULTILINE)


def with_settings(text, block):
    """A file of settings with those of a block: behind the heading of a table that it has, or as a table of its own."""
    for table in re.split(r"^(?=\[)", block, flags=re.MULTILINE)[1:]:
        heading, _, members = table.partition("\n")
        text = text.replace(f"{heading}\n", f"{heading}\n{members}", 1) if f"{heading}\n" in text else f"{text}\n{table}"
    return text
