"""A run of a network on three machines: messages are lost, repeated and late, a relay restarts, and the journal is legal.

The run is made by network_run.py, which refuses an event that the rules do not allow. So the diagram shows a run that there is.
`checks/run pictures` has a judge of traces judge its journal."""

from collections.abc import Iterator
from dataclasses import dataclass

from network_run import Network
from strokes import DOWN, GREY, INK, LIGHT, UP, arrow, box, card, cross, line, text

WIDE, FIRST, ROW = 860, 128, 33
# The middle of each machine's line, and where the journal begins.
LINES = {"d": 110, "c": 345, "auctioneer": 580}
JOURNAL = 670
MACHINES = {"d": "device d", "c": "relay c", "auctioneer": "auctioneer"}


@dataclass
class Message:
    """A message: whose it is and to whom, in which row it is sent and in which it comes, if it does, and what becomes of it."""

    sender: str
    receiver: str
    words: str
    sent: float
    comes: float | None
    fate: str = "taken"


@dataclass
class Note:
    """What a machine does in a row, beside its line."""

    machine: str
    row: float
    words: str


class Story:
    """The run as it is told: what was sent, what is noted beside the lines, and the moves of the journal, each by its row."""

    def __init__(self) -> None:
        self.net = Network()
        self.messages: list[Message] = []
        self.notes: list[Note] = []
        self.moves: list[tuple[float, list[str]]] = []

    def tell(self, row: float, moves: list[str]) -> None:
        """Notes the moves of the journal that an event stands for."""
        if moves:
            self.moves.append((row, moves))

    def device_bids(self, row: float, comes: float, fate: str = "taken") -> int:
        """The device makes its next bid."""
        number, moves = self.net.bid()
        self.messages.append(Message("d", "c", f"bid {number}", row, comes, fate))
        self.tell(row, moves)
        return number

    def relay_sends(self, row: float, comes: float | None, fate: str = "taken") -> int:
        """The relay sends what it holds."""
        number, moves = self.net.relay_sends()
        self.messages.append(Message("c", "auctioneer", f"bid {number}", row, comes, fate))
        self.tell(row, moves)
        return number

    def price_comes_down(self, row: float) -> None:
        """The auctioneer clears, the relay passes the price on, and the device takes it."""
        price, moves = self.net.clear()
        self.tell(row, moves)
        self.messages.append(Message("auctioneer", "c", f"price {price.index}, for your {price.number}", row, row + 0.7))
        below, moves = self.net.relay_passes(price)
        if below is None:
            raise ValueError("the relay does not pass the price on")
        self.tell(row + 1, moves)
        self.messages.append(Message("c", "d", f"price {below.index}, for your {below.number}", row + 1, row + 1.7))
        self.tell(row + 1.8, self.net.device_takes(below))


def require(right: bool) -> None:
    """Refuses a run that does not go as the diagram tells it."""
    if not right:
        raise ValueError("the run does not go as the diagram tells it")


def before_the_restart(story: Story) -> int:
    """The relay's first bid is lost, and its second one comes twice. Gives the number of the second."""
    net = story.net
    require(net.relay_takes(story.device_bids(0, 0.7)))
    story.relay_sends(1, None, "lost")
    require(net.relay_takes(story.device_bids(1.7, 2.4)))
    second = story.relay_sends(2.7, 3.4)
    require(net.auctioneer_takes(second))
    story.price_comes_down(4.2)
    story.messages.append(Message("c", "auctioneer", f"bid {second} again", 3.7, 5.2, "dropped"))
    require(not net.auctioneer_takes(second))
    return second


def after_the_restart(story: Story) -> None:
    """A bid of the device overtakes the one before."""
    net = story.net
    late = story.device_bids(6.8, 9.5, "dropped")
    require(net.relay_takes(story.device_bids(7.8, 8.5)))
    third = story.relay_sends(8.8, 9.5)
    require(not net.relay_takes(late))
    require(net.auctioneer_takes(third))
    story.price_comes_down(10.2)


def told() -> Story:
    """The whole run."""
    story = Story()
    second = before_the_restart(story)
    story.net.restart_relay()
    story.notes.append(Note("c", 6.4, f"restarts: it stored its bid {second}"))
    after_the_restart(story)
    return story


def journal() -> list[str]:
    """The moves of the market that the run stands for."""
    return [move for _, moves in told().moves for move in moves]


def drawn_message(message: Message) -> Iterator[str]:
    """A message as an arrow from line to line; a lost one ends half-way, a dropped one at the receiver with a cross."""
    colour = UP if message.words.startswith("bid") else DOWN
    x1, x2 = LINES[message.sender], LINES[message.receiver]
    y1 = FIRST + ROW * message.sent
    side = 1 if x2 > x1 else -1
    if message.comes is None:
        middle = (x1 + x2) / 2
        yield arrow(x1, y1, middle, y1 + 12, colour=colour, dashed=True)
        yield cross(middle + 10, y1 + 13, colour=colour)
        yield text(middle + 22, y1 + 17, "lost", size=11, colour=colour)
        yield text(x1 + 14, y1 - 4, message.words, size=11, colour=colour, bold=True)
        return
    y2 = FIRST + ROW * message.comes
    dropped = message.fate == "dropped"
    yield arrow(x1, y1, x2 - side * (12 if dropped else 2), y2, colour=colour, dashed=dropped)
    if dropped:
        yield cross(x2 - side * 6, y2, colour=colour)
        anchor = "end" if side > 0 else "start"
        yield text(x2 - side * 16, y2 + 15, "dropped: it is no newer", size=11, colour=colour, anchor=anchor)
    yield text(x1 + side * 14, y1 - 4, message.words, size=11, colour=colour, bold=True, anchor="start" if side > 0 else "end")


def machines(bottom: float) -> Iterator[str]:
    """The machines with their lines, and what is between them."""
    for name, x in LINES.items():
        yield box(x - 62, 66, 124, 34, fill=LIGHT)
        yield text(x, 88, MACHINES[name], anchor="middle", bold=True)
        yield line(x, 100, x, bottom, wide=2)
    for left, right in (("d", "c"), ("c", "auctioneer")):
        yield text((LINES[left] + LINES[right]) / 2, 88, "network", anchor="middle", size=11, colour=GREY)


def drawn_note(note: Note) -> Iterator[str]:
    """A mark on a machine's line, with its words."""
    y = FIRST + ROW * note.row
    yield box(LINES[note.machine] - 10, y - 9, 20, 18, fill=INK)
    yield text(LINES[note.machine] + 16, y + 4, note.words, size=11, bold=True)


def drawn(story: Story, bottom: float) -> Iterator[str]:
    """The parts of the diagram."""
    yield text(24, 30, "Messages are lost, repeated and late, and a relay restarts: the run stays legal", bold=True, size=15)
    yield text(24, 50, "each machine drops what is not newer, and a price finds its bid by the numbers", size=12, colour=GREY)
    yield from machines(bottom)
    yield text(JOURNAL, 88, "the market's journal", bold=True)
    for message in story.messages:
        yield from drawn_message(message)
    for note in story.notes:
        yield from drawn_note(note)
    for row, moves in story.moves:
        for at, move in enumerate(moves):
            yield text(JOURNAL, FIRST + ROW * row + 4 + 14 * (at - (len(moves) - 1) / 2), move, size=12, code=True)


def picture() -> str:
    """The diagram."""
    bottom = FIRST + ROW * 12.4
    parts = drawn(told(), bottom)
    return card(WIDE, round(bottom + 16), "A run of a network on three machines, with the journal that it stands for", parts)
