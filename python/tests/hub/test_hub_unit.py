"""The unit of the hub beside the settings that its page and example show: it lets the hub write and read what they name."""

from __future__ import annotations

import pytest
from brokers import TOP
from units import Unit, block_of, example


@pytest.mark.parametrize("told", [lambda: block_of("HUB.md", "[hub]"), lambda: example("hub/hub.toml")], ids=["page", "example"])
def test_the_unit_can_write_and_read_what_the_page_shows(told):
    Unit((TOP / "examples/hub/market-hub.service").read_text(), "market-hub.service").require(told())
