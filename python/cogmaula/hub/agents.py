"""All agents of a hub: who may log in, and the node of each. All calls are of the thread of the hub's loop."""

from __future__ import annotations

import asyncio

from ..live.broker.broker_link import Message
from ..live.node.node_errors import BadMessage, BadSettings, LiveError, NodeRefused
from ..live.messages.frames import RESUMES, AuctioneerResume, frame_of
from ..live.node.node import Node
from ..live.node.sessions import Session
from ..logs import NodeLog
from .agent_control import Agent
from .agent_messages import LEAVE_OFFER, Login, quoted
from .exchange import Exchange
from .hub_settings import HubSettings
from .login_refusals import NodeDown, TooManyWrongLogins, WrongLogin
from .node_thread import Running
from .places import Place, keep_place, places_in, require_places
from .tokens import Entries, Entry, FailedLogins, TokenFile, hash_of

# The seconds between looks at the clock of an agent's node, if nothing else happens. 256 of them would be dear at the usual rate.
TICK = 1.0
# The seconds in which all nodes have to end.
LAST_SECONDS = 5.0


class Agents:
    """The agents of a hub in one session."""

    def __init__(
        self,
        settings: HubSettings,
        exchange: Exchange,
        session: Session,
        loop: asyncio.AbstractEventLoop,
        log: NodeLog,
    ) -> None:
        """Takes what the hub has. `log` takes lines."""
        self._settings = settings
        self._exchange = exchange
        self._session = session
        self._loop = loop
        self._log = log
        self._file = TokenFile(settings.agents)
        self._entries: Entries = {}
        self._places: dict[str, Place] = {}
        self._agents: dict[str, Agent] = {}
        self._failed = FailedLogins()
        self._wrong = ""
        # An agent that is not known takes as long as one whose token is wrong.
        self._nobody = Entry("", 0, hash_of(""))

    def begin(self) -> None:
        """Reads the file of tokens, and starts the node of each agent that has bid in this session, also if it is barred by now.

        Raises BadSettings if the file is wrong, BadStore and OSError.
        """
        self._places = places_in(self._settings.folder_of_agents, self._session.id)
        try:
            self._entries = self._right(self._file.changed() or {})
        except FileNotFoundError:
            raise BadSettings(f"there is no {self._settings.agents}: --new-token AGENT CHILD makes it") from None
        except PermissionError:
            raise BadSettings(f"{self._settings.agents} cannot be read: give it to the user of the hub, or put it into the hub's folder") from None
        self._exchange.watch(self._take_message)
        for name, place in self._places.items():
            agent = self._agent(name, place.child)
            self._start(agent)
            self._wait_or_leave(agent)

    def stop(self) -> None:
        """Ends all nodes. It waits for them, and may be called from another thread."""
        running = [agent.running for agent in self._agents.values() if agent.running is not None]
        for thread in running:
            thread.stop()
        for thread in running:
            thread.join(LAST_SECONDS)

    @property
    def nodes(self) -> list[Node]:
        """The nodes that work. It may be read from any thread."""
        return [agent.running.node for agent in list(self._agents.values()) if agent.running is not None]

    def end_connections(self, why: str) -> None:
        """Ends the connection of each agent, and tells it why."""
        for agent in self._agents.values():
            agent.end(why)

    # The file of tokens.

    def look(self) -> None:
        """Reads the file of tokens again if it has changed. One that is wrong is not taken."""
        try:
            found = self._file.changed()
            if found is None:
                return
            entries = self._right(found)
        except (BadSettings, OSError) as error:
            self._error_once(f"the file of tokens is not taken, and the agents are those of before: {error}")
            return
        self._wrong = ""
        before, self._entries = self._entries, entries
        self._log.info(f"{self._settings.agents} has changed: {len(entries)} agents may log in")
        for name in [name for name in before if entries.get(name) != before[name]]:
            self._bar(name, "has another token: log in with the new one" if name in entries else "is barred")

    def _bar(self, name: str, why: str) -> None:
        agent = self._agents.get(name)
        if agent is None:
            return
        agent.end(f"{name} {why}")
        if name not in self._entries:
            agent.offer(LEAVE_OFFER)

    def _right(self, entries: Entries) -> Entries:
        """Entries that this market can have. Raises BadSettings."""
        if self._settings.name in entries:
            raise BadSettings(f"{self._settings.name} is the hub's own name: give the agent another one")
        require_places(entries, self._places)
        return entries

    def _error_once(self, text: str) -> None:
        if text != self._wrong:
            self._wrong = text
            self._log.error(text)

    # Logins.

    def login(self, data: bytes, address: str) -> Agent:
        """The agent that logs in by this line from this address, with its node at work. Raises LiveError.

        The token is looked at first: no failed login of others keeps a right one out.
        """
        agent = self._agent_of(self._entry_of(data, address))
        if agent.running is None or not agent.running.is_alive:
            self._start(agent)
            if agent.running is None:
                raise NodeDown(f"the node of {agent.name} does not start: the hub's log says why")
        return agent

    def _entry_of(self, data: bytes, address: str) -> Entry:
        """The entry of the agent that logs in. Raises BadMessage."""
        try:
            login = Login.of(data)
            entry = self._entries.get(login.agent, self._nobody)
            if entry.takes(login.token) and entry is not self._nobody:
                return entry
            raise WrongLogin(f"the login of {quoted(login.agent)} is refused: look at agentId and token")
        except BadMessage:
            if self._failed.are_too_many(address):
                raise TooManyWrongLogins(f"too many logins of {address} failed: try again in a second") from None
            self._failed.note(address)
            raise

    def _agent_of(self, entry: Entry) -> Agent:
        """The agent of an entry. One without a node takes the child number of the entry."""
        agent = self._agents.get(entry.agent) or self._agent(entry.agent, entry.child)
        if agent.running is None or not agent.running.is_alive:
            agent.child = entry.child
        return agent

    @property
    def with_node(self) -> int:
        """How many agents have a node."""
        return len(self._agents)

    @property
    def allowed(self) -> int:
        """How many agents may log in."""
        return len(self._entries)

    # The nodes.

    def _agent(self, name: str, child: int) -> Agent:
        agent = self._agents[name] = Agent(name, child, self._settings.gone, self._loop)
        return agent

    def _wait_or_leave(self, agent: Agent) -> None:
        """Lets an agent of before the hub's start leave: after its time, or at once if it is barred."""
        if agent.name in self._entries:
            agent.wait()
        else:
            agent.offer(LEAVE_OFFER)

    def _start(self, agent: Agent) -> None:
        """Starts an agent's node. What is wrong is said, and then the agent has no node."""
        agent.running = None
        agent.lose_node()
        try:
            settings = self._settings.of_agent(agent.name, agent.child)
            place = Place(agent.child, self._session.id)
            if self._places.get(agent.name) != place:
                self._require_unused(agent)
                keep_place(self._settings.folder_of_agents / agent.name, place)
                self._places[agent.name] = place
            node = Node(settings, agent, self._log.of_node(agent.name), self._exchange.link, min(TICK, self._settings.times.tick))
        except (LiveError, OSError) as error:
            self._log.of_node(agent.name).error(str(error))
            return
        agent.running = Running(node, lambda running: self._loop.call_soon_threadsafe(self._ended, agent, running))

    def _require_unused(self, agent: Agent) -> None:
        """Raises NodeRefused if somebody has bid under the number of an agent whose folder has nothing of this session."""
        message = self._exchange.message(self._settings.topics.of(self._settings.name, "resume"))
        if message is None:
            return
        resume = frame_of(message.payload, RESUMES["auctioneer"], self._settings.basis.steps)
        if isinstance(resume, AuctioneerResume) and resume.numbers[agent.child - 1]:
            raise NodeRefused(
                f"child {agent.child} has bid in this session, and {self._settings.folder_of_agents / agent.name} has no Resume "
                "of it: bring the folder back, give another child number, or begin a new session by --new-session"
            )

    def _ended(self, agent: Agent, running: Running) -> None:
        if running.error is not None:
            self._log.of_node(agent.name).error(f"its node has ended, {running.error}")
        if agent.running is running:
            agent.lose_node()
            agent.end(f"the node of {agent.name} has ended: log in again")

    def _take_message(self, message: Message) -> None:
        """Lets an agent forget its newest priceUpdate if its device has left. It is called in the node's thread."""
        above, _, what = message.topic.rpartition("/")
        agent = self._agents.get(above.rpartition("/")[2]) if what == "setpoint" and not message.payload else None
        if agent is not None:
            agent.forget()
