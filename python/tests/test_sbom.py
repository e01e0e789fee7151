"""The bill of materials is current, and what is not current in one is told."""

from __future__ import annotations

import copy
import importlib.util
import json

import pytest
from conftest import TOP


@pytest.fixture(scope="module")
def sbom():
    made = importlib.util.spec_from_file_location("sbom", TOP / "packaging" / "sbom.py")
    module = importlib.util.module_from_spec(made)
    made.loader.exec_module(module)
    return module


def test_the_bill_is_current(sbom):
    told = json.loads((TOP / "sbom.cdx.json").read_text())
    assert sbom.faults(told, sbom.bill(asks=False)) == [], "run `make sbom`"
    names = {part["name"] for part in told["components"]}
    assert {"rattle-kit-13f", "market", "live", "mosquitto", "haproxy", "pandas"} <= names
    assert all(part["version"] not in ("", sbom.UNKNOWN) for part in told["components"])


@pytest.mark.parametrize(
    ("name", "change", "due"),
    [
        ("mosquitto", None, "pkg:deb/debian/mosquitto is missing"),
        ("live", {"hashes": [{"alg": "SHA-256", "content": "0"}]}, "prebuilt/x86_64-linux/live differs"),
        ("mosquitto", {"bom-ref": "pkg:deb/debian/moskito"}, "pkg:deb/debian/moskito is there and not due"),
        ("pandas", {"version": ">=1.4"}, "pkg:pypi/pandas differs"),
    ],
)
def test_what_is_not_current_is_told(sbom, name, change, due):
    now = sbom.bill(asks=False)
    told = copy.deepcopy(now)
    if change is None:
        told["components"] = [part for part in told["components"] if part["name"] != name]
    else:
        [part] = [part for part in told["components"] if part["name"] == name][:1]
        part.update(change)
    assert due in sbom.faults(told, now)
