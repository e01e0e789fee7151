#!/usr/bin/env python3
"""Makes the bill of materials of a release, sbom.cdx.json, in the form of CycloneDX 1.4.

    python3 packaging/sbom.py          writes it
    python3 packaging/sbom.py --check  says what is not current, with status 1

It has the kit and the packages of kit.txt, those of python/pyproject.toml, and the prebuilt programs
with their hashes and stamps. Versions of packages are those of Debian 12 where it was written; a check
compares all else.
"""

from __future__ import annotations

import hashlib
import json
import subprocess
import sys
import tomllib
from pathlib import Path
from typing import Any

TOP = Path(__file__).resolve().parents[1]
FILE = TOP / "sbom.cdx.json"
# The lines of kit.txt with packages, and whether what is installed needs them.
LINES = {
    "debian": "required",
    "debian-extra": "optional",
    "debian-checks": "excluded",
    "debian-package": "excluded",
}
WHAT = {
    "required": "to run",
    "optional": "for more commands",
    "excluded": "to check and to package",
}
UNKNOWN = "unknown"


def version_of(package: str) -> str:
    """The version of a package of Debian that is installed here, or else could be."""
    for words in (
        ["dpkg-query", "-W", "-f", "${Version}", package],
        ["apt-cache", "policy", package],
    ):
        try:
            done = subprocess.run(words, capture_output=True, text=True, check=False, timeout=60)
        except OSError:
            continue
        told = done.stdout.strip()
        if words[0] == "apt-cache":
            lines = [line.split()[-1] for line in told.splitlines() if "Candidate:" in line]
            told = lines[0] if lines else ""
        if told and told != "(none)":
            return told
    return UNKNOWN


def kit_lines() -> dict[str, list[str]]:
    """What kit.txt has, by the words before its colons."""
    found = {}
    for line in (TOP / "kit.txt").read_text().splitlines():
        if line and not line.startswith("#"):
            name, _, rest = line.partition(":")
            found[name] = rest.split()
    return found


def debian_components(lines: dict[str, list[str]], asks: bool) -> list[dict[str, Any]]:
    """Each package of Debian once, by the first line that has it; with its version, if asked for."""
    found: dict[str, str] = {}
    for line, scope in LINES.items():
        for package in lines.get(line, []):
            found.setdefault(package, scope)
    return [
        {
            "type": "application",
            "bom-ref": f"pkg:deb/debian/{package}",
            "name": package,
            "version": version_of(package) if asks else "",
            "scope": scope,
            "description": f"Debian 12, {WHAT[scope]}",
            "purl": f"pkg:deb/debian/{package}?distro=bookworm",
        }
        for package, scope in sorted(found.items())
    ]


def python_components() -> list[dict[str, Any]]:
    """The packages of Python that parts of the library need, with the least version of each."""
    project = tomllib.loads((TOP / "python" / "pyproject.toml").read_text())["project"]
    found: dict[str, str] = {}
    for extra, needs in project.get("optional-dependencies", {}).items():
        for need in needs:
            name, _, least = need.partition(">=")
            if extra != "test":
                found[name] = max(found.get(name, ""), least)
    return [
        {
            "type": "library",
            "bom-ref": f"pkg:pypi/{name.lower()}",
            "name": name,
            "version": f">={least}",
            "scope": "optional",
            "purl": f"pkg:pypi/{name.lower()}",
        }
        for name, least in sorted(found.items())
    ]


def prebuilt_components() -> list[dict[str, Any]]:
    """The prebuilt programs, with their hashes and what their stamps say."""
    found = []
    for path in sorted(TOP.glob("prebuilt/*/*.stamp")):
        program = path.with_suffix("")
        stamp = dict(
            line.partition(": ")[::2] for line in path.read_text().splitlines() if ": " in line
        )
        digest = hashlib.sha256(program.read_bytes()).hexdigest()
        found.append(
            {
                "type": "application",
                "bom-ref": f"prebuilt/{program.parent.name}/{program.name}",
                "name": program.name,
                "version": (TOP / "VERSION").read_text().strip(),
                "scope": "required",
                "hashes": [{"alg": "SHA-256", "content": digest}],
                "properties": [
                    {"name": f"market:{word}", "value": value} for word, value in stamp.items()
                ],
            }
        )
    return found


def bill(asks: bool = True) -> dict[str, Any]:
    """The bill of materials, with the versions of Debian's packages if asked for."""
    lines, version = kit_lines(), (TOP / "VERSION").read_text().strip()
    kit = lines["kit"][0]
    parts = [
        {
            "type": "application",
            "bom-ref": kit,
            "name": kit,
            "version": kit.rpartition("-")[2],
            "scope": "excluded",
        }
    ]
    parts += [*prebuilt_components(), *debian_components(lines, asks), *python_components()]
    return {
        "bomFormat": "CycloneDX",
        "specVersion": "1.4",
        "version": 1,
        "metadata": {
            "component": {
                "type": "application",
                "bom-ref": "market",
                "name": "market",
                "version": version,
                "licenses": [{"license": {"id": "Apache-2.0"}}],
            }
        },
        "components": parts,
    }


def without_versions(told: dict[str, Any]) -> dict[str, Any]:
    """A bill without the versions of Debian's packages, which differ from machine to machine."""
    parts = [
        {**part, "version": ""} if part.get("purl", "").startswith("pkg:deb/") else part
        for part in told["components"]
    ]
    return {**told, "components": parts}


def faults(told: dict[str, Any], due: dict[str, Any]) -> list[str]:
    """What of a bill is not current, in words."""
    if without_versions(told) == without_versions(due):
        return []
    names = [
        {part["bom-ref"]: part for part in without_versions(one)["components"]}
        for one in (told, due)
    ]
    lines = [f"{name} is missing" for name in sorted(names[1].keys() - names[0].keys())]
    lines += [f"{name} is there and not due" for name in sorted(names[0].keys() - names[1].keys())]
    both = sorted(names[0].keys() & names[1].keys())
    lines += [f"{name} differs" for name in both if names[0][name] != names[1][name]]
    return lines or ["its head differs"]


def main(words: list[str]) -> int:
    """Writes the bill, or checks it."""
    if words == ["--check"]:
        due = bill(asks=False)
        told = json.loads(FILE.read_text()) if FILE.exists() else {"components": []}
        found = faults(told, due)
        for line in found:
            print(f"sbom.cdx.json: {line}: `make sbom` makes it anew")
        return 1 if found else 0
    FILE.write_text(json.dumps(bill(), indent=1) + "\n")
    return 0


if __name__ == "__main__":
    sys.exit(main(sys.argv[1:]))
