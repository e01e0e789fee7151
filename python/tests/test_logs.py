"""How a command shows what its parts log: the lines, whose they are, and their priorities in systemd's journal."""

from __future__ import annotations

import io
import logging
import os

import pytest

from cogmaula import logs
from cogmaula.logs import NodeLog, is_journal, prefix_of

LOG = NodeLog(logging.getLogger("cogmaula.hub.hub"))


@pytest.fixture(autouse=True)
def restored():
    """The package's logger as it was before the test."""
    logger = logging.getLogger(logs.PACKAGE)
    before, level = list(logger.handlers), logger.level
    yield
    logger.handlers[:] = before
    logger.setLevel(level)


def journal_of(descriptor):
    """The environment of a process whose descriptor the journal reads: sd_journal_stream_fd(3) names the stream by device and inode."""
    found = os.fstat(descriptor)
    return {"JOURNAL_STREAM": f"{found.st_dev}:{found.st_ino}"}


@pytest.mark.parametrize(("log", "line"), [
    (LOG, "cogmaula hub: hello"),
    (LOG.of_node("hub"), "cogmaula hub: hello"),
    (LOG.of_node("house"), "cogmaula hub: house: hello"),
    (LOG.of_part("page"), "cogmaula hub: page: hello"),
    (LOG.of_node("house").of_part("page"), "cogmaula hub: house: page: hello"),
])
def test_a_line_names_the_command_and_another_node_than_its_own(log, line, capsys):
    logs.show("cogmaula hub", "hub", {})
    log.info("hello")
    log.debug("this is for nobody")
    assert capsys.readouterr().err == f"{line}\n"


def test_the_last_command_counts_and_writes_each_line_once(capsys):
    logs.show("cogmaula node a", "a", {})
    logs.show("cogmaula node b", "b", {})
    LOG.warning("100 % of it")
    assert capsys.readouterr().err == "cogmaula node b: 100 % of it\n"


def test_a_line_is_written_though_the_stream_of_before_was_closed(capsys):
    """As after a test whose standard error was captured, and is gone."""
    logs.show("cogmaula hub")
    (handler,) = [handler for handler in logging.getLogger(logs.PACKAGE).handlers if isinstance(handler, logs.StandardError)]
    handler.stream = io.StringIO()
    handler.stream.close()
    LOG.warning("a line")
    assert capsys.readouterr().err == "cogmaula hub: a line\n"


def test_a_log_of_changes_leaves_out_the_line_before_once_more(caplog):
    changes = LOG.of_node("house").of_changes()
    for text in ("waits", "waits", "is there", "waits"):
        changes.warning(text)
    assert [(record.node, record.message) for record in caplog.records] == [("house", "waits"), ("house", "is there"), ("house", "waits")]


@pytest.mark.parametrize(("level", "prefix"), [
    (logging.DEBUG, "<7>"), (logging.INFO, "<6>"), (logging.WARNING, "<4>"), (logging.ERROR, "<3>"), (logging.CRITICAL, "<2>"),
])
def test_a_level_has_the_priority_of_syslog(level, prefix):
    assert prefix_of(level) == prefix


def test_the_journal_is_known_by_its_stream(tmp_path):
    with open(tmp_path / "one", "wb") as one, open(tmp_path / "two", "wb") as two:
        assert is_journal(journal_of(one.fileno()), one.fileno())
        assert not is_journal(journal_of(one.fileno()), two.fileno()), "standard error goes elsewhere"
        assert not is_journal({}, one.fileno()), "not below systemd"
        closed = two.fileno()
    assert not is_journal({"JOURNAL_STREAM": "1:2"}, closed), "a process without standard error"


def test_in_the_journal_each_line_has_its_priority(capfd):
    logs.show("cogmaula hub", "hub", journal_of(2))
    LOG.warning("one")
    try:
        raise ValueError("two")
    except ValueError:
        LOG.exception("three")
    lines = capfd.readouterr().err.splitlines()
    assert lines[:2] == ["<4>cogmaula hub: one", "<3>cogmaula hub: three"]
    assert all(line.startswith("<3>") for line in lines[1:]) and lines[-1] == "<3>ValueError: two"


def test_a_stranger_causes_a_few_lines_and_the_next_one_says_how_many_were_left_out(caplog, monkeypatch):
    """Lines of others are not left out, and no line is longer than it may be."""
    now = [100.0]
    monkeypatch.setattr(logs.time, "monotonic", lambda: now[0])
    log = NodeLog(LOG.logger, "house")
    for number in range(logs.BURST + 40):
        log.of_stranger("market/x/bid/1").warning(f"wrong {number}")
    log.of_part("page").of_stranger("market/x/bid/2").warning("y" * 2_000)
    now[0] += logs.BETWEEN
    log.of_stranger("market/x/bid/1").error("wrong again")
    log.of_stranger("market/x/bid/1").error("and again")
    said = [record.message for record in caplog.records]
    assert said[:-2] == [f"wrong {number}" for number in range(logs.BURST)]
    assert said[-2:] == [f"page: {'y' * logs.LONGEST}..", "wrong again (40 lines before it were left out)"]


def test_strangers_without_end_take_no_memory_and_few_lines(caplog):
    log = NodeLog(LOG.logger)
    for number in range(3 * logs.STRANGERS):
        log.of_stranger(f"market/{number}/state").warning("wrong")
    assert len(caplog.records) == logs.STRANGERS + logs.BURST
    assert len(log._allowances._of) == logs.STRANGERS + 1


@pytest.mark.parametrize(("text", "line"), [
    ("a\nerror: b", "a\\nerror: b"), ("\u2028", "\\u2028"), ("\u202etxt", "\\u202etxt"), ("\x1b[2J\x85\0", "\\x1b[2J\\x85\\x00"),
    ("\ud800", "\\ud800"), ("\ufeff", "\\ufeff"), ("Zürich, 電", "Zürich, 電"),
])
def test_what_is_not_printable_stands_by_its_number(text, line, capsys):
    """So no text begins another line, or turns one."""
    logs.show("cogmaula hub", "hub", {})
    LOG.warning(text)
    assert capsys.readouterr().err == f"cogmaula hub: {line}\n"
