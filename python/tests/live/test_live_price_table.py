"""The table of prices of a node: its bytes by hand, each child's own Price, and what is no table."""

from __future__ import annotations

import pytest
from hypothesis import given
from hypothesis import strategies as st
from pretended import BASIS, price

from cogmaula.cluster import Basis
from cogmaula.live.node.node_errors import BadFrame
from cogmaula.live.messages.price_table import LONGEST, PriceTable, price_for

# Child 1 has bid 1 and child 3 bid 4 answered, by clearing 7 at step 1 of prices 0 to 9 in two steps.
BY_HAND = bytes.fromhex("1f 00000007 0001 00000000 00000009 0002 00000001 00000000 00000004")
TABLE = PriceTable(7, 1, BASIS, {1: 1, 3: 4})


def test_the_bytes_are_those_of_the_page():
    assert TABLE.to_bytes() == BY_HAND
    assert PriceTable.of(BY_HAND) == TABLE
    assert LONGEST == 17 + 4 * 256


def test_each_child_finds_the_price_that_the_service_wrote():
    assert [price_for(BY_HAND, child) for child in (1, 2, 3, 4, 256)] == [price(1, 1, 7, 1), None, price(3, 4, 7, 1), None, None]
    assert TABLE.prices() == [price(1, 1, 7, 1), price(3, 4, 7, 1)]


@given(
    st.dictionaries(st.integers(1, 256), st.integers(1, 2**32 - 1)),
    st.integers(0, 2**32 - 1),
    st.sampled_from([Basis(0, 9, 2), Basis(-500, 499, 1_000), Basis(0, 100, 11)]),
    st.data(),
)
def test_what_is_taken_apart_is_what_was_put_together(numbers, index, basis, data):
    step = data.draw(st.integers(0, basis.steps - 1))
    table = PriceTable(index, step, basis, numbers)
    told = table.to_bytes()
    assert len(told) <= LONGEST
    assert PriceTable.of(told) == table
    for child in range(1, 257):
        due = price(child, numbers[child], index, step, basis) if child in numbers else None
        assert price_for(told, child) == due
        assert due is None or table.is_of_clearing(due)


@pytest.mark.parametrize(
    ("data", "why"),
    [
        (b"", "no table of prices"),
        (BY_HAND[:16], "no table of prices"),
        (b"\x17" + BY_HAND[1:], "no table of prices"),
        (BY_HAND + b"\0", "and not 30"),
        (BY_HAND[:17] + bytes(4 * 257), "at most 256 children"),
        (BY_HAND[:6] + b"\x02" + BY_HAND[7:], "the step is 2, and there are 2"),
        (BY_HAND[:15] + b"\0\1" + BY_HAND[17:], "is no basis"),
    ],
)
def test_what_is_no_table(data, why):
    for read in (PriceTable.of, lambda it: price_for(it, 1)):
        with pytest.raises(BadFrame, match=why):
            read(data)
