"""JSON with places: each value and each member of a text with where it stands, and where a text is no JSON.

It reads as docs/CLUSTER_FILE.md says of code 1: UTF-8 without a byte order mark, nesting of at most 127, numbers that a 64-bit
float holds, no lone surrogate, and no text behind the value.
"""

from __future__ import annotations

import json
import math
import re
from dataclasses import dataclass, field
from typing import Any, Literal

What = Literal["object", "list", "text", "whole", "number", "other"]

BLANKS = re.compile(r"[ \t\n\r]*")
NUMBER = re.compile(r"-?(?:0|[1-9][0-9]*)(?:\.[0-9]+)?(?:[eE][+-]?[0-9]+)?")
WHOLE = re.compile(r"0|-?[1-9][0-9]*")
PLAIN = re.compile(r'[^"\\\x00-\x1f]*')
ESCAPE = re.compile(r'\\(?:["\\/bfnrt]|u[0-9a-fA-F]{4})')
WORDS = {"true": True, "false": False, "null": None}
# The most objects and lists inside each other, and the ends of a whole number.
NESTING = 127
LEAST, MOST = -(2**63), 2**63 - 1


class NoJson(Exception):
    """The text is no JSON: where, why, and what is due there."""

    def __init__(self, at: int, why: str, due: str) -> None:
        super().__init__(why)
        self.at = at
        self.why = why
        self.due = due


@dataclass(frozen=True)
class Member:
    """A member of an object: its name, where its name begins and ends, and its value."""

    name: str
    at: int
    end: int
    value: Value


@dataclass(frozen=True)
class Value:
    """A value of a text.

    at, end: its first character and the one behind its last
    what:    `whole` is a number without point and exponent within 64 bits, `number` any other, `other` a word
    members: of an object, by their names; if a name is there twice, the last counts
    """

    at: int
    end: int
    what: What
    value: Any = None
    members: dict[str, Member] = field(default_factory=dict)
    items: list[Value] = field(default_factory=list)


class Reader:
    """Reads a text from its beginning on."""

    def __init__(self, text: str) -> None:
        self.text = text
        self.at = 0

    def document(self) -> Value:
        """The value that the whole text is. Raises NoJson."""
        if self.text.startswith("\ufeff"):
            raise NoJson(0, "the text begins with a byte order mark", "the JSON value, with nothing before it")
        value = self._value(0)
        self._skip()
        if self.at < len(self.text):
            raise NoJson(self.at, "there is text after the value", "nothing but blanks")
        return value

    def _skip(self) -> None:
        found = BLANKS.match(self.text, self.at)
        self.at = found.end() if found else self.at

    def _next(self) -> str:
        """The next character that is no blank, or nothing at the end of the text."""
        self._skip()
        return self.text[self.at : self.at + 1]

    def _value(self, depth: int) -> Value:
        char = self._next()
        if char in ("{", "["):
            if depth >= NESTING:
                raise NoJson(self.at, f"lists and objects are nested more than {NESTING} deep", "a shallower value")
            return self._object(depth) if char == "{" else self._list(depth)
        if char == '"':
            return self._text()
        if found := NUMBER.match(self.text, self.at):
            return self._number(found.group())
        for word, value in WORDS.items():
            if self.text.startswith(word, self.at):
                self.at += len(word)
                return Value(self.at - len(word), self.at, "other", value)
        raise self._misses("a value")

    def _misses(self, due: str) -> NoJson:
        """What is said where something else is due."""
        if self.at >= len(self.text):
            return NoJson(self.at, "the text ends here, before its value does", due)
        return NoJson(self.at, f"{self.text[self.at]!r} does not belong here", due)

    def _number(self, digits: str) -> Value:
        at = self.at
        self.at += len(digits)
        behind = self.text[self.at : self.at + 1]
        if behind and (behind in "+-._" or behind.isalnum()):
            raise NoJson(self.at, f"{behind!r} does not belong to a number", "digits, without a zero in front or a blank between")
        if math.isinf(float(digits)):
            raise NoJson(at, "no 64-bit float holds this number", "a smaller number")
        if WHOLE.fullmatch(digits) and len(digits) <= 20 and LEAST <= int(digits) <= MOST:
            return Value(at, self.at, "whole", int(digits))
        return Value(at, self.at, "number", float(digits))

    def _text(self) -> Value:
        at = self.at
        self.at += 1
        while True:
            found = PLAIN.match(self.text, self.at)
            self.at = found.end() if found else self.at
            char = self.text[self.at : self.at + 1]
            if char == '"':
                self.at += 1
                break
            if char != "\\":
                raise self._misses('a quote (") at the end of the text' if not char else r"\n, \t or \u and four digits for this character")
            self._escape()
        return Value(at, self.at, "text", json.loads(self.text[at : self.at]))

    def _escape(self) -> None:
        """Passes over what is written behind a backslash."""
        found = ESCAPE.match(self.text, self.at)
        if not found:
            raise NoJson(self.at, "this backslash begins no character", r'\" \\ \/ \b \f \n \r \t, or \u and four hexadecimal digits')
        at, self.at = self.at, found.end()
        if not found.group().startswith("\\u"):
            return
        number = int(found.group()[2:], 16)
        if 0xDC00 <= number <= 0xDFFF:
            raise NoJson(at, "this is the second half of a surrogate pair alone", "the whole pair, or the character itself")
        if 0xD800 <= number <= 0xDBFF:
            other = ESCAPE.match(self.text, self.at)
            if not other or not re.fullmatch(r"\\u[dD][c-fC-F][0-9a-fA-F]{2}", other.group()):
                raise NoJson(at, "this is the first half of a surrogate pair alone", "the whole pair, or the character itself")
            self.at = other.end()

    def _list(self, depth: int) -> Value:
        at, items = self.at, list[Value]()
        self.at += 1
        if self._next() == "]":
            self.at += 1
            return Value(at, self.at, "list", items=items)
        while True:
            items.append(self._value(depth + 1))
            if self._ends("]", "a comma or the ] that ends the list"):
                return Value(at, self.at, "list", items=items)

    def _ends(self, end: str, due: str) -> bool:
        """Passes over a comma, or over the end of a list or an object, and tells whether it was the end."""
        char = self._next()
        if char not in (",", end) or not char:
            raise self._misses(due)
        self.at += 1
        return char == end

    def _object(self, depth: int) -> Value:
        at, members = self.at, dict[str, Member]()
        self.at += 1
        if self._next() == "}":
            self.at += 1
            return Value(at, self.at, "object", members=members)
        while True:
            if self._next() != '"':
                raise self._misses("the name of a member, in quotes")
            name = self._text()
            if self._next() != ":":
                raise self._misses("a colon behind the name of the member")
            self.at += 1
            value = self._value(depth + 1)
            # The last of several counts.
            members[name.value] = Member(name.value, name.at, name.end, value)
            if self._ends("}", "a comma or the } that ends the object"):
                return Value(at, self.at, "object", members=members)


def read(data: bytes) -> tuple[str, Value]:
    """The text of these bytes, and the value that it is. Raises NoJson."""
    try:
        text = data.decode()
    except UnicodeDecodeError as error:
        raise NoJson(
            len(data[: error.start].decode()), f"the byte {data[error.start]} here is no UTF-8", "the file in UTF-8"
        ) from None
    return text, Reader(text).document()
