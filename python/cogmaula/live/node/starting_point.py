"""Which session and which Resume a node begins with, by what is on its disk and what its broker retains."""

from __future__ import annotations

from collections.abc import Mapping
from dataclasses import dataclass, replace

from ...logs import NodeLog
from ..broker.broker_link import Message
from ..children.children import BIDS_OF_SUM, FORM, LONGEST_NUMBER, OWN_BID, RELAYS, SESSION, TIME
from .node_errors import BadFrame, BadMessage, NodeRefused, OtherTerms
from ..messages.frames import BIDS, FIRST_FORM, RESUMES, AuctioneerResume, Bid, DeviceResume, Gone, RelayResume, Resume, ResumeGone, frame_of
from ..messages.messages import VERSION, BasisMessage, SetpointMessage, StateMessage
from .sessions import Session, new_session, now_text
from .node_settings import Settings
from .silence import Heartbeat
from .store import Store, Stored


def resume_of(settings: Settings, data: bytes) -> Resume | None:
    """The Resume that stored bytes are, None for no bytes. Raises BadFrame."""
    if not data:
        return None
    frame = frame_of(data, RESUMES[settings.sort], settings.basis.steps)
    assert isinstance(frame, RelayResume | AuctioneerResume | DeviceResume | ResumeGone)
    return frame


@dataclass(frozen=True)
class StartingPoint:
    """Finds what a node begins with.

    seen: the newest message of each topic that the node reads
    log:  takes a line if it is not the one before
    """

    settings: Settings
    store: Store
    seen: Mapping[str, Message]
    log: NodeLog

    def basis(self) -> BasisMessage | None:
        """The basis that the broker retains, or None."""
        message = self.seen.get(self.settings.topics.basis)
        try:
            return BasisMessage.of(message.payload) if message is not None and message.payload else None
        except BadMessage as error:
            self.log.warning(f"{self.settings.topics.basis} is not taken: {error}")
            return None

    def of_auctioneer(self) -> Stored:
        """What an auctioneer begins with: its newest session, or a new one. Raises NodeRefused, BadStore and OSError."""
        stored, told = self.store.newest(), self.basis()
        sessions = [start.session for start in (stored, told) if start is not None]
        newest = max(sessions, key=lambda session: session.order, default=None)
        if self.settings.new_session or newest is None:
            return self._new(newest)
        if VERSION not in [start.version for start in (stored, told) if start is not None and start.session == newest]:
            raise OtherTerms(
                f"session {newest.id} is of another version of this market: stop all nodes, install this version, and begin a new session "
                "by --new-session"
            )
        if stored is not None and stored.session != newest:
            raise NodeRefused(
                f"the market is in session {newest.id}, which another auctioneer began later than {stored.session.id} of "
                f"{self.store.folder}: end the other one, or begin a new session by --new-session"
            )
        found = self._newer(newest, stored)
        if found is not None:
            self._require_terms(found)
        if found is None:
            self.log.warning(f"no Resume of session {newest.id} is on disk or at the broker: a new session begins")
            return self._new(newest)
        if found.basis != self.settings.basis or (told is not None and told.session == newest and told.basis != found.basis):
            raise NodeRefused(
                f"session {newest.id} is of another basis, {found.basis}: give that one, or begin a new session by --new-session"
            )
        return found

    def of_other(self) -> Stored | None:
        """What a relay or a device begins with, None while it has to wait. Raises NodeRefused, BadStore and OSError."""
        told = self.basis()
        if told is None:
            topic = self.settings.topics.basis
            self.log.warning(f"waits for the basis at {topic}: is the auctioneer up, and may this node read that topic?")
            return None
        if told.version != VERSION:
            self.log.warning(
                f"waits: session {told.session.id} is of version {told.version}, and this node of {VERSION}. Install this version at the "
                "auctioneer, and begin a new session there by --new-session"
            )
            return None
        self.require_basis(told)
        newest = self.store.newest()
        if newest is not None and newest.session.order > told.session.order:
            self.log.warning(f"waits: the broker tells of session {told.session.id}, older than {newest.session.id} on disk")
            return None
        found = self._newer(told.session, self.store.load(told.session))
        if found is None:
            self._require_no_bid(told.session)
            found = Stored(told.session, told.basis, b"", now_text())
            if newest is not None:
                # How long an offer holds does not depend on the session.
                found = replace(found, offer=newest.offer, until=newest.until)
        if found.basis != told.basis:
            raise NodeRefused(f"{self.store.path(told.session)} is of another basis, {found.basis}: bring back that of this market")
        self._require_terms(found)
        return self._with_newest_setpoint(found)

    def _with_newest_setpoint(self, found: Stored) -> Stored:
        """The same with the broker's setpoint, if it is that of the disk after a later clearing."""
        told = self._setpoint(found.session)
        if told is None or found.setpoint is None or not told.is_same(found.setpoint) or told.clearing <= found.setpoint.clearing:
            return found
        return replace(found, setpoint=told)

    def _require_terms(self, found: Stored) -> None:
        """Raises OtherTerms if a Resume was made under other terms than the node's: its service would refuse it."""
        session, settings = found.session.id, self.settings
        if found.version != VERSION:
            raise self._other_version(str(self.store.path(found.session)), found.session)
        try:
            resume = resume_of(settings, found.frame)
        except BadFrame as error:
            raise NodeRefused(f"{self.store.path(found.session)} has no Resume of this node: {error}") from None
        if resume is None:
            return
        if resume.basis != settings.basis:
            raise OtherTerms(
                f"the basis is {settings.basis}, and the Resume of session {session} is of {resume.basis}: bring that back, or begin a new "
                "session at the auctioneer by --new-session"
            )
        if isinstance(resume, RelayResume) and resume.terms != settings.terms:
            raise OtherTerms(
                f"the limits are {_words_of(settings.terms)}, and in session {session} they were {_words_of(resume.terms)}: bring them "
                "back, or begin a new session at the auctioneer by --new-session"
            )

    def _other_version(self, where: str, session: Session) -> OtherTerms:
        return OtherTerms(
            f"{where} has a Resume of another version, in session {session.id}: give the node another child number, or begin a new session at "
            "the auctioneer by --new-session"
        )

    def require_basis(self, told: BasisMessage) -> None:
        """Raises NodeRefused if the market's basis is not the node's."""
        if told.basis != self.settings.basis:
            raise NodeRefused(f"the market's basis is {told.basis}, and this node has {self.settings.basis}: give it the market's")

    def require_alone(self, session: Session, run: str, starts: int, own: int) -> None:
        """Raises NodeRefused if another process goes on as this node. One that has ended by itself does not, unless it was a later one of a
        relay.

        session:     the session that the node is in
        run, starts: those of this process
        own:         the last number of the newest Resume of this process
        """
        settings = self.settings
        other = self.state()
        if settings.sort == "relay" and other is not None and other.run != run and other.starts > starts and not other.may_live:
            # A relay makes its sums by itself: each of the two may have given one number to another sum.
            raise NodeRefused(
                f"another process has run as {settings.name} since {other.started}, and has ended: this one is older. Start the node anew"
            )
        if other is not None and other.may_live and other.run != run and (other.starts, other.run) > (starts, run):
            topic = settings.topics.of(settings.name, "state")
            raise NodeRefused(
                f"another process runs as {settings.name} since {other.started}: end one of the two, since a node runs once. "
                f"If it runs no more, clear the topic {topic}"
            )
        resume, bid = self._resume_at_broker(session), self._own_bid(session)
        number = max(0 if resume is None else resume[1].last, 0 if bid is None else bid.number)
        if number > own:
            raise NodeRefused(
                f"{settings.name} has given number {number}, and the newest Resume here has {own}: another process runs as "
                f"{settings.name}, or {self.store.path(session)} is an old copy"
            )

    def starts(self, run: str) -> int:
        """The greatest count of starts that the broker tells of this node, of other processes than this run; 0 without one.

        A last will has the count that its process had before it knew of the broker's. So an auctioneer's own heartbeats count too.
        """
        state = self.state()
        counts = [0 if state is None or state.run == run else state.starts]
        message = self.seen.get(self.settings.own_topic("heartbeat")) if self.settings.sort == "auctioneer" else None
        if message is not None and message.payload:
            try:
                counts.append(Heartbeat.of(message.payload).start)
            except BadMessage as error:
                self.log.warning(f"{message.topic} is not taken: {error}")
        return max(counts)

    def state(self) -> StateMessage | None:
        """The state of this node that the broker retains, or None."""
        message = self.seen.get(self.settings.topics.of(self.settings.name, "state"))
        try:
            return StateMessage.of(message.payload) if message is not None and message.payload else None
        except BadMessage:
            return None

    def _new(self, before: Session | None) -> Stored:
        session = new_session(before)
        self.log.info(f"session {session.id} begins: all nodes count from 1 in it")
        return Stored(session, self.settings.basis, b"", now_text())

    def _resume_at_broker(self, session: Session) -> tuple[Message, Resume] | None:
        """The Resume of this session that the broker retains, or None."""
        topic = self.settings.topics.of(self.settings.name, "resume")
        message = self.seen.get(topic)
        if message is None or not message.payload or message.properties.get(SESSION) != session.id:
            return None
        if message.payload[0] in FIRST_FORM or message.properties.get(FORM) != str(VERSION):
            raise self._other_version(topic, session)
        try:
            resume = resume_of(self.settings, message.payload)
        except BadFrame as error:
            self.log.warning(f"{topic} is not taken: {error}")
            return None
        return None if resume is None else (message, resume)

    def bids_of_sum(self, session: Session, frame: bytes) -> str:
        """Of the bids in a Resume, what the broker's copy of just this Resume tells."""
        found = self._resume_at_broker(session)
        return found[0].properties.get(BIDS_OF_SUM, "") if found is not None and found[0].payload == frame else ""

    def _newer(self, session: Session, stored: Stored | None) -> Stored | None:
        """The newer of the Resume on disk and the one at the broker; the one on disk if they are of one number.

        If both gave one number to two sums of a relay, the one at the broker was sent: another process was this relay meanwhile.
        """
        found = self._resume_at_broker(session)
        if found is None:
            return stored
        message, resume = found
        if stored is not None and stored.version != VERSION:
            return stored
        try:
            before = None if stored is None else resume_of(replace(self.settings, basis=stored.basis), stored.frame)
        except BadFrame as error:
            raise NodeRefused(f"{self.store.path(session)} has no Resume of this node: {error}") from None
        is_other = before is not None and before.last == resume.last and is_of_another_sum(before, resume)
        if stored is not None and before is not None and before.last >= resume.last and not is_other:
            return stored
        told = "in which it is of another sum than on disk" if is_other else "which is newer than the one on disk"
        self.log.info(f"goes on from the broker's Resume with number {resume.last}, {told}")
        setpoint = self._setpoint(session) if isinstance(resume, DeviceResume) else None
        time = message.properties.get(TIME, now_text())
        # Who is a relay is told with the Resume. What the disk has of children that were let go, and of limits, is not older than it.
        relays = tuple(int(word) for word in message.properties.get(RELAYS, "").split() if word.isdecimal() and len(word) <= LONGEST_NUMBER)
        known = Stored(session, self.settings.basis, b"", time) if stored is None else stored
        all_relays = tuple(sorted({*relays, *known.relays}))
        bid = self._bid_beside(message, resume)
        return replace(known, basis=self.settings.basis, frame=message.payload, time=time, setpoint=setpoint, relays=all_relays, bid=bid)

    def _bid_beside(self, message: Message, resume: Resume) -> bytes:
        """The Bid of a relay's last number that the broker's copy of its Resume tells, b"" if an earlier version told none."""
        try:
            frame = frame_of(bytes.fromhex(message.properties.get(OWN_BID, "")), BIDS, self.settings.basis.steps)
        except (BadFrame, ValueError):
            return b""
        is_own = isinstance(frame, Bid) and (frame.child, frame.number) == (self.settings.child, resume.last)
        return frame.to_bytes() if is_own and isinstance(resume, RelayResume) else b""

    def _setpoint(self, session: Session) -> SetpointMessage | None:
        """The setpoint of this session that the broker retains, as it is stored, None without one."""
        message = self.seen.get(self.settings.own_topic("setpoint"))
        if message is None or message.properties.get(SESSION) != session.id:
            return None
        try:
            return replace(SetpointMessage.of(message.payload), until=None, holds=None)
        except BadMessage:
            # It is that the market was silent, or none.
            return None

    def _own_bid(self, session: Session) -> Bid | Gone | None:
        """This node's bid of this session that the broker retains, or None."""
        settings = self.settings
        if settings.parent is None or settings.child is None:
            return None
        message = self.seen.get(settings.topics.bid(settings.parent, settings.child))
        if message is None or not message.payload or message.properties.get(SESSION) != session.id:
            return None
        try:
            frame = frame_of(message.payload, BIDS, settings.basis.steps)
        except BadFrame:
            return None
        return frame if isinstance(frame, Bid | Gone) else None

    def _require_no_bid(self, session: Session) -> None:
        """Raises NodeRefused if the node has bid in this session, and so has lost its Resume."""
        bid = self._own_bid(session)
        if bid is not None:
            raise NodeRefused(
                f"child {bid.child} of {self.settings.parent} has bid number {bid.number} in session {session.id}, and its Resume is on no "
                "disk and not at the broker: bring it back, give the node another child number, or begin a new session at the auctioneer"
            )


def is_of_another_sum(one: Resume, other: Resume) -> bool:
    """Whether two Resumes of a relay are of two sums, by the bids and the limits that these are made of."""
    if not isinstance(one, RelayResume) or not isinstance(other, RelayResume):
        return False
    return (one.numbers, one.floor, one.ceiling) != (other.numbers, other.floor, other.ceiling)


def _words_of(terms: tuple[int, int, int]) -> str:
    """FLOOR, CEILING and GIVER of a relay, in words."""
    floor, ceiling, giver = terms
    return f"{floor} to {ceiling} watts" + (f", which may change by child {giver}" if giver else "")
