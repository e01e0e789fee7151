"""Frames: by the hexadecimal examples of docs/RELAY.md, there and back for all frames, and cut at any point."""

from __future__ import annotations

import pytest
from hypothesis import given
from hypothesis import strategies as st

from cogmaula.live.node.node_errors import BadFrame
from cogmaula.live.device.device_kinds import DeviceKind
from cogmaula.live.messages.frames import (
    BIDS,
    CHILDREN,
    LAST_NUMBER,
    MOST,
    PRICES,
    READS,
    RESUMES,
    WRITES,
    AuctioneerResume,
    Bid,
    Bound,
    Clear,
    DeviceResume,
    Dropped,
    Expire,
    Fault,
    Gone,
    Hello,
    Kind,
    Leave,
    Limits,
    NotCaughtUp,
    NotChanged,
    Offer,
    Old,
    OtherBasis,
    OutOfLimits,
    OutOfNumbers,
    Points,
    Price,
    RelayResume,
    ResumeGone,
    Send,
    Setpoint,
    State,
    Splitter,
    TooMuch,
    WindowFull,
    frame_of,
    size_of,
)

NOBODY = (0,) * 254
BASIS, IN_HEX = (0, 9, 2), "00000000 00000009 0002"
TERMS = (-1000, 1000, 256)

# The frames of the page's examples, and one of each kind that it does not write out; the bytes are by hand from its table.
EXAMPLES = [
    (Hello(0, 9, 2), "01 00000000 00000009 0002"),
    (Bid(1, 1, (5, -3)), "02 0001 00000001 00000005 FFFFFFFD"),
    (Gone(2, 2), "03 0002 00000002"),
    (Clear(), "04"),
    (Price(3, 1, 7, 1, *BASIS), f"17 0003 00000001 00000007 0001 {IN_HEX}"),
    (NotChanged(), "06"),
    (Old(2, 4), "07 0002 00000004"),
    (Fault(258), "08 0000000000000102"),
    (Send(), "09"),
    (WindowFull(), "0A"),
    (Dropped(1, 7), "0B 00000001 00000007"),
    (
        RelayResume(1, 1, 7, *BASIS, *TERMS, -2, 600, (1, 4, *NOBODY)),
        f"19 00000001 00000001 00000007 {IN_HEX} FFFFFC18 000003E8 0100 FFFFFFFE 00000258 00000001 00000004" + 254 * " 00000000",
    ),
    (AuctioneerResume(1, *BASIS, (0, 0, 1, *NOBODY[1:])), f"19 00000001 {IN_HEX} 00000000 00000000 00000001" + 253 * " 00000000"),
    (DeviceResume(2, 7, *BASIS, (500, -300)), f"19 00000002 00000007 {IN_HEX} 000001F4 FFFFFED4"),
    (Offer((500, -300)), "0D 000001F4 FFFFFED4"),
    (Leave(), "0E"),
    (Setpoint(1, 7, 1, -300), "0F 00000001 00000007 0001 FFFFFED4"),
    (ResumeGone(2, 7, *BASIS), f"1A 00000002 00000007 {IN_HEX}"),
    (NotCaughtUp(), "11"),
    (OutOfNumbers(), "12"),
    (Expire(2), "13 0002"),
    (Limits(2, -2, 600), "14 00000002 FFFFFFFE 00000258"),
    (Bound(2, -300, 500), "15 0002 FFFFFED4 000001F4"),
    (TooMuch(2, 4), "16 0002 00000004"),
    (OtherBasis(1, 7), "18 00000001 00000007"),
    (OutOfLimits(1), "1B 00000001"),
    (Kind.of(DeviceKind("battery", (1000, 300, 300, 0))), "1D 03 000003E8 0000012C 0000012C 00000000 00000000"),
    (State(400), "1E 00000190"),
    (Points.of([(0, 500), (9, -300)]), "82 00000000 000001F4 00000009 FFFFFED4"),
]


@pytest.mark.parametrize(("frame", "text"), EXAMPLES, ids=lambda kind: type(kind).__name__)
def test_the_bytes_of_the_page(frame, text):
    data = bytes.fromhex(text)
    assert frame.to_bytes() == data
    assert size_of(type(frame), 2, data[0]) == len(data)
    assert frame_of(data, {data[0]: type(frame)}, 2) == frame


def test_a_resume_has_the_sizes_of_the_page():
    assert [size_of(kind, 2) for kind in (RelayResume, AuctioneerResume, DeviceResume)] == [1065, 1039, 19 + 4 * 2]


def test_each_node_reads_and_writes_what_the_page_says():
    names = {sort: {kind.__name__ for kind in kinds.values()} for sort, kinds in READS.items()}
    assert names["device"] == {"Hello", "DeviceResume", "ResumeGone", "Offer", "Points", "Kind", "State", "Leave", "Price", "Old"}
    assert names["relay"] == {"Hello", "RelayResume", "Bound", "Limits", "Bid", "Gone", "Expire", "Send", "Price", "Old"}
    assert names["auctioneer"] == {"Hello", "AuctioneerResume", "Bound", "Bid", "Gone", "Expire", "Clear"}
    assert set(WRITES["device"]) == {2, 3, 8, 10, 11, 15, 18, 24, 25, 26}
    assert set(WRITES["relay"]) == {2, 6, 7, 8, 10, 11, 17, 18, 22, 23, 24, 25, 27}
    assert set(WRITES["auctioneer"]) == {6, 7, 8, 17, 18, 22, 23, 25}
    assert set(RESUMES["device"]) == {25, 26}
    assert set(PRICES) == {7, 23}


unsigned = st.integers(0, LAST_NUMBER)
child = st.integers(1, CHILDREN)
step = st.integers(0, 65_535)
power = st.integers(-MOST, MOST)
limits = (st.integers(-MOST, 0), st.integers(0, MOST))
all_numbers = st.lists(unsigned, min_size=CHILDREN, max_size=CHILDREN).map(tuple)


def falling(steps):
    return st.lists(power, min_size=steps, max_size=steps).map(lambda them: tuple(sorted(them, reverse=True)))


def written(sort, steps):
    """Frames that a node of this sort writes."""
    common = [
        st.builds(Price, child, unsigned, unsigned, step, power, power, step),
        st.builds(Fault, st.integers(0, 2**64 - 1)),
        st.just(OutOfNumbers()),
    ]
    bids = [st.builds(Bid, child, unsigned, falling(steps)), st.just(WindowFull()), st.builds(Dropped, unsigned, unsigned)]
    asked = [st.just(NotChanged()), st.just(NotCaughtUp()), st.builds(Old, child, unsigned)]
    match sort:
        case "relay":
            return st.one_of(*common, *bids, *asked, st.builds(RelayResume, *3 * [unsigned], power, power, step, *limits, child, *limits, all_numbers))
        case "auctioneer":
            return st.one_of(*common, *asked, st.builds(AuctioneerResume, unsigned, power, power, step, all_numbers))
    own = [
        st.builds(Gone, child, unsigned),
        st.builds(Setpoint, unsigned, unsigned, step, power),
        st.builds(DeviceResume, unsigned, unsigned, power, power, step, falling(steps)),
        st.builds(ResumeGone, unsigned, unsigned, power, power, step),
    ]
    return st.one_of(*common[1:], *bids, *own)


@st.composite
def streams(draw):
    """A sort, a number of steps, frames that such a node writes, and where to cut the stream of them."""
    sort, steps = draw(st.sampled_from(["relay", "auctioneer", "device"])), draw(st.integers(2, 5))
    frames = draw(st.lists(written(sort, steps), max_size=6))
    length = sum(len(frame.to_bytes()) for frame in frames)
    cuts = sorted(draw(st.lists(st.integers(0, length), max_size=8)))
    return sort, steps, frames, [0, *cuts, length]


@given(streams())
def test_a_stream_is_cut_into_its_frames_wherever_it_comes_apart(drawn):
    sort, steps, frames, cuts = drawn
    data = b"".join(frame.to_bytes() for frame in frames)
    splitter = Splitter(WRITES[sort], steps)
    found = []
    for begin, end in zip(cuts, cuts[1:], strict=False):
        found += splitter.feed(data[begin:end])
        ends = [sum(len(frame.to_bytes()) for frame in frames[:n]) for n in range(len(frames) + 1)]
        assert len(found) == max(n for n, ended in enumerate(ends) if ended <= end)
    assert found == frames
    assert splitter.kept == b""


@given(st.integers(2, 5).flatmap(lambda steps: st.tuples(st.just(steps), child, st.integers(1, LAST_NUMBER), falling(steps))))
def test_a_right_bid_comes_back(drawn):
    steps, *fields = drawn
    frame = Bid(*fields)
    assert frame_of(frame.to_bytes(), BIDS, steps) == frame


@pytest.mark.parametrize(
    ("frame", "why"),
    [
        (Bid(0, 1, (5, -3)), "the child is 0"),
        (Bid(257, 1, (5, -3)), "the child is 257"),
        (Bid(1, 0, (5, -3)), "the number is 0"),
        (Bid(1, 1, (5, 6)), "a demand is above the one of the step before"),
        (Bid(1, 1, (MOST + 1, 0)), "outside"),
        (Bid(1, 1, (0, -MOST - 1)), "outside"),
        (Bid(1, 1, (5, 4, 3)), "a Bid has 15 bytes in a market of 2 steps, and not 19"),
        (Gone(0, 1), "the child is 0"),
        (Gone(1, 0), "the number is 0"),
        (Price(1, 1, 1, 1, *BASIS), "no kind"),
    ],
)
def test_what_no_parent_takes_is_refused(frame, why):
    with pytest.raises(BadFrame, match=why):
        frame_of(frame.to_bytes(), BIDS, 2)


@pytest.mark.parametrize(
    ("frame", "why"),
    [
        (Price(1, 1, 1, 2, *BASIS), "the step is 2"),
        (Price(0, 1, 1, 0, *BASIS), "child"),
        (Price(1, 0, 1, 0, *BASIS), "number"),
        (Price(1, 1, 1, 0, 0, 9, 3), "no basis"),
        (Old(257, 3), "child"),
    ],
)
def test_what_no_child_takes_is_refused(frame, why):
    with pytest.raises(BadFrame, match=why):
        frame_of(frame.to_bytes(), PRICES, 2)


@pytest.mark.parametrize(
    ("frame", "why"),
    [
        (Expire(0), "the child is 0"),
        (Limits(0, 0, 0), "the number is 0, and not 2, 4, 6"),
        (Limits(3, 0, 0), "the number is 3"),
        (Limits(2, 1, 2), "1 to 2 watts are no limits"),
        (Bound(257, 0, 0), "the child is 257"),
        (Bound(1, 0, -1), "no limits"),
        (RelayResume(1, 2, 0, *BASIS, *TERMS, 0, 0, (0, 0, *NOBODY)), "the number answered, 2, is above the last, 1"),
        (RelayResume(1, 0, 0, *BASIS, 1, 2, 0, 0, 0, (0, 0, *NOBODY)), "no limits"),
        (RelayResume(1, 0, 0, *BASIS, -1, 1, 257, 0, 0, (0, 0, *NOBODY)), "the place of limits is 257"),
        (AuctioneerResume(1, 9, 9, 2, (0, 0, *NOBODY)), "no basis"),
        (DeviceResume(0, 0, *BASIS, (5, -3)), "the number is 0"),
        (DeviceResume(5, 0, *BASIS, (5, -3)), "the number is 5"),
        (DeviceResume(2, 0, *BASIS, (5, 6)), "above the one of the step before"),
        (ResumeGone(3, 0, *BASIS), "the number is 3"),
    ],
)
def test_what_no_service_takes_is_refused(frame, why):
    with pytest.raises(BadFrame, match=why):
        frame_of(frame.to_bytes(), {frame.KIND: type(frame)}, 2)


def test_an_agent_without_an_offer_may_have_given_no_number():
    assert frame_of(ResumeGone(0, 0, *BASIS).to_bytes(), RESUMES["device"], 2).last == 0


@pytest.mark.parametrize(("first", "kinds"), [("05", PRICES), ("0C", RESUMES["relay"]), ("10", RESUMES["device"])])
def test_a_frame_of_the_first_form_is_told_apart(first, kinds):
    with pytest.raises(BadFrame, match="of the first form: install this version at the node that wrote it"):
        frame_of(bytes.fromhex(first + "0003 00000001"), kinds, 2)


def test_no_bytes_are_no_frame():
    with pytest.raises(BadFrame, match="empty"):
        frame_of(b"", BIDS, 2)


def test_limits_of_demands_are_taken():
    assert frame_of(Bid(256, LAST_NUMBER, (MOST, -MOST)).to_bytes(), BIDS, 2).number == LAST_NUMBER


def test_an_offer_of_another_length_is_refused():
    with pytest.raises(BadFrame, match="3 demands are there, and 2 are due"):
        Offer((3, 2, 1)).require_right(2)
    Offer((2, 2)).require_right(2)


def test_a_byte_that_begins_no_frame():
    splitter = Splitter(WRITES["device"], 2)
    assert list(splitter.feed(b"\x0a")) == [WindowFull()]
    with pytest.raises(BadFrame, match="byte 200"):
        list(splitter.feed(b"\xc8"))
