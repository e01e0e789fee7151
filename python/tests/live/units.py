"""A service unit of the repository as tests read it, and the blocks of settings that the pages show."""

from __future__ import annotations

import re
import tomllib

from brokers import TOP


class Unit:
    """What a service unit hands to its program, and lets it write, by its text and its name."""

    def __init__(self, text, unit):
        self.lines = [line.split("=", 1) for line in text.splitlines() if re.match("[A-Z]", line)]
        self.state = [f"/var/lib/{folder}" for folder in self.all("StateDirectory")]
        handed = [credential.partition(":") for credential in self.all("LoadCredential")]
        self.credentials = {f"/run/credentials/{unit}/{name}" for name, _, _ in handed}
        # Files that the unit hands over by an option, which goes before the settings.
        command = self.all("ExecStart")[0]
        self.options = {path for name, _, path in handed if f"%d/{name}" in command}
        if "--password-folder %d" in command:
            # Under the name that each has in the settings.
            self.options |= {path for name, _, path in handed if path.endswith(f"/{name}")}
        assert self.all("DynamicUser") == ["yes"] and self.all("ProtectSystem") == ["strict"]

    def all(self, name):
        return [line[1] for line in self.lines if line[0] == name]

    def require(self, tables):
        """Requires that what is written lies in the unit's own folder, and that each secret comes from there or is handed over."""
        seen = 0
        for table, members in tables.items():
            for member, value in members.items():
                if member in ("state", "record", "agents"):
                    assert any(f"{value}/".startswith(f"{folder}/") for folder in self.state), f"{member} = {value} is not below {self.state}"
                    seen += 1
                elif member in ("password_file", "key"):
                    is_given = value in self.credentials or value in self.options
                    assert is_given, f"{table}.{member} = {value} is none of {self.credentials}"
                    seen += 1
        assert seen, f"nothing of {tables} is written or secret"


def block_of(page, first):
    """The indented block of a page that begins with this line, as TOML."""
    found = re.search(rf"^    {re.escape(first)}\n(?:    .*\n|\n(?=    ))+", (TOP / "docs" / page).read_text(), re.M)
    assert found, f"{page} has no block {first}"
    return tomllib.loads(re.sub("^    ", "", found[0], flags=re.M))


def example(path):
    """The settings of an example."""
    return tomllib.loads((TOP / "examples" / path).read_text())
