"""Standard streams that fail: input that fails, ends, waits or comes in pieces, at each byte; output that is full, closed or without a
reader; a stop and a continuation.

Everything goes through the system's own edges. A read fails if the other end of a socket was closed with bytes unread; pieces
of a known size come through a socket that keeps packets apart; a file takes no more at a limit of the process on its files.
"""

import fcntl
import os
import resource
import signal
import socket
import subprocess
import threading

from checks import CASES
from checks.drive.built import SECONDS, ended, sampled
from checks.oracle.oracle import due_of, envelope, why_wrong

DONE, READ_FAULT, WRITE_FAULT = 0, 3, 6
TARGETS = b"0\n100\n-60\n"
LEAST_PIPE = 4_096
# No command reads less at once.
LONGEST_PIECE = 4_096
SAMPLE = 12


def start(program, arguments, **settings):
    return subprocess.Popen([program, *arguments], **({"stdout": subprocess.PIPE, "stderr": subprocess.DEVNULL} | settings))


def finish(child):
    """The exit status of a started program, and what it wrote."""
    try:
        written = child.communicate(timeout=SECONDS)[0]
    except subprocess.TimeoutExpired:
        child.kill()
        written = child.communicate()[0]
        return None, written or b""
    return child.returncode, written or b""


def failing_read(program, arguments, text):
    """A run whose standard input gives these bytes, and then fails."""
    ours, its = socket.socketpair()
    its.send(b"unread")
    ours.sendall(text)
    child = start(program, arguments, stdin=its)
    its.close()
    ours.close()
    return finish(child)


def waiting_read(program, arguments, text):
    """A run whose standard input gives these bytes, and then says that it would have to wait."""
    its, ours = os.pipe()
    os.write(ours, text)
    os.set_blocking(its, False)
    child = start(program, arguments, stdin=its)
    os.close(its)
    ended = finish(child)
    os.close(ours)
    return ended


def in_packets(program, arguments, text, size):
    """A run whose every read gives at most so many bytes."""
    ours, its = socket.socketpair(socket.AF_UNIX, socket.SOCK_SEQPACKET)
    child = start(program, arguments, stdin=its)
    its.close()
    try:
        for at in range(0, len(text), size):
            ours.send(text[at : at + size])
    except OSError:
        pass
    ours.close()
    return finish(child)


def in_pieces(program, arguments, pieces):
    """A run whose every read gives one piece, written while the answers are read. Long pieces are cut: a short read loses the rest."""
    ours, its = socket.socketpair(socket.AF_UNIX, socket.SOCK_SEQPACKET)
    child = start(program, arguments, stdin=its)
    its.close()

    def send():
        try:
            for piece in pieces:
                for at in range(0, len(piece), LONGEST_PIECE):
                    ours.send(piece[at : at + LONGEST_PIECE])
        except OSError:
            pass
        ours.close()

    sender = threading.Thread(target=send)
    sender.start()
    found = finish(child)
    sender.join()
    return found


def through_a_pipe(program, arguments, text, size, halfway=None):
    """A run whose standard input is written in pieces; half-way something is done to it."""
    child = start(program, arguments, stdin=subprocess.PIPE, bufsize=0)
    pieces = [text[at : at + size] for at in range(0, len(text), size)]

    def write():
        try:
            for number, piece in enumerate(pieces):
                if halfway and number == len(pieces) // 2:
                    halfway(child)
                child.stdin.write(piece)
        except OSError:
            pass
        child.stdin.close()

    writer = threading.Thread(target=write)
    writer.start()
    written = child.stdout.read()
    writer.join()
    child.stdout.close()
    return child.wait(), written


def stop_and_go(child):
    child.send_signal(signal.SIGSTOP)
    child.send_signal(signal.SIGCONT)


def file_that_takes(program, arguments, text, size, folder):
    """A run whose standard output is a file that takes so many bytes."""
    def limit():
        signal.signal(signal.SIGXFSZ, signal.SIG_IGN)
        resource.setrlimit(resource.RLIMIT_FSIZE, (size, size))

    path = folder / "written"
    with open(path, "wb") as file:
        child = subprocess.run([program, *arguments], input=text, stdout=file, stderr=subprocess.DEVNULL, preexec_fn=limit,
                               timeout=SECONDS)
    return child.returncode, path.read_bytes()


def killed_at(program, arguments, text, size, folder):
    """A run that the system kills once it has written so many bytes: the signal of a file that may not grow ends it."""
    def limit():
        signal.signal(signal.SIGXFSZ, signal.SIG_DFL)
        resource.setrlimit(resource.RLIMIT_CORE, (0, 0))
        resource.setrlimit(resource.RLIMIT_FSIZE, (size, size))

    path = folder / "killed"
    with open(path, "wb") as file:
        child = subprocess.run([program, *arguments], input=text, stdout=file, stderr=subprocess.DEVNULL, preexec_fn=limit,
                               timeout=SECONDS)
    return child.returncode, path.read_bytes()


def reader_that_goes(program, arguments, text, size):
    """A run whose standard output is a pipe that is closed after so many bytes were read."""
    its, ours = os.pipe()
    fcntl.fcntl(ours, fcntl.F_SETPIPE_SZ, LEAST_PIPE)
    child = start(program, arguments, stdin=subprocess.PIPE, stdout=ours)
    os.close(ours)
    read = b""
    if size == 0:
        os.close(its)
    child.stdin.write(text)
    child.stdin.close()
    while len(read) < size:
        read += os.read(its, size - len(read))
    if size:
        os.close(its)
    return child.wait(SECONDS), read


def slow_reader(program, arguments, text):
    """A run whose standard output is a small pipe that is read byte by byte."""
    its, ours = os.pipe()
    fcntl.fcntl(ours, fcntl.F_SETPIPE_SZ, LEAST_PIPE)
    child = start(program, arguments, stdin=subprocess.PIPE, stdout=ours)
    os.close(ours)
    child.stdin.write(text)
    child.stdin.close()
    read = b"".join(iter(lambda: os.read(its, 1), b""))
    os.close(its)
    return child.wait(SECONDS), read


def full_pipe(program, arguments, text):
    """A run whose standard output is a small pipe that nobody reads, and that does not wait."""
    its, ours = os.pipe()
    fcntl.fcntl(ours, fcntl.F_SETPIPE_SZ, LEAST_PIPE)
    os.set_blocking(ours, False)
    status, _ = ended_into(program, arguments, text, ours)
    os.close(ours)
    written = b"".join(iter(lambda: os.read(its, LEAST_PIPE), b""))
    os.close(its)
    return status, written


def ended_into(program, arguments, text, output):
    child = subprocess.run([program, *arguments], input=text, stdout=output, stderr=subprocess.DEVNULL, timeout=SECONDS)
    return child.returncode, b""


def without_streams(program, arguments, text, closed):
    """A run to which the streams of these numbers are closed."""
    def close():
        for number in closed:
            os.close(number)

    child = start(program, arguments, stdin=subprocess.PIPE, preexec_fn=close)
    written = child.communicate(text, timeout=SECONDS)[0]
    return child.returncode, written


def is_part(written, text):
    """Whether what was written is a proper part of the text, from its start."""
    return len(written) < len(text) and text.startswith(written)


def inputs(program):
    """For each command that reads a whole input a small one."""
    file = (CASES / "run" / "two_bids.json").read_bytes().strip()
    for command in ("run", "trace", "bill", "free"):
        yield command, file
    yield "ask", envelope(file, TARGETS)
    yield "check", envelope(file, ended(program, ["trace"], file)[1])


def reads(program, everything):
    """Standard input that fails, waits, ends or comes in pieces: a name, and what is wrong or None."""
    for command, text in inputs(program):
        all_lengths = everything or command == "run"
        for length in sampled(range(len(text) + 1), len(text) + 1 if all_lengths else SAMPLE):
            found = failing_read(program, [command], text[:length])
            yield f"{command}: input fails after {length} bytes", None if found == (READ_FAULT, b"") else f"it ends with {found}"
        for length in sampled(range(len(text)), len(text) if everything or command in ("ask", "check") else SAMPLE):
            found = ended(program, [command], text[:length])
            yield f"{command}: input ends after {length} bytes", why_wrong(command, text[:length], found)
        found = waiting_read(program, [command], text[:100])
        yield f"{command}: input waits after 100 bytes", None if found == (READ_FAULT, b"") else f"it ends with {found}"
        for size in (1, 7, len(text)):
            yield f"{command}: input in packets of {size}", why_wrong(command, text, in_packets(program, [command], text, size))
            yield f"{command}: input in writes of {size}", why_wrong(command, text, through_a_pipe(program, [command], text, size))
        found = through_a_pipe(program, [command], text, 7, stop_and_go)
        yield f"{command}: stopped and continued half-way", why_wrong(command, text, found)
    files = [("a failing file", "/proc/self/mem", os.O_RDONLY), ("a file open for writing alone", "/dev/null", os.O_WRONLY)]
    for name, path, flags in files:
        stdin = os.open(path, flags)
        found = finish(start(program, ["run"], stdin=stdin))
        os.close(stdin)
        yield f"run: {name} as input", None if found == (READ_FAULT, b"") else f"it ends with {found}"


def writes(program, folder, everything):
    """Standard output that takes no more: a name, and what is wrong or None."""
    for command, text in inputs(program):
        if command == "trace":
            text = (CASES / "trace" / "only_trace.json").read_bytes()
        due = ended(program, [command], text)[1]
        for size in sampled(range(len(due) + 1), len(due) + 1 if everything or command == "run" else SAMPLE):
            found = file_that_takes(program, [command], text, size, folder)
            right = (WRITE_FAULT, due[:size]) if size < len(due) else (DONE, due)
            yield f"{command}: output takes {size} bytes", None if found == right else f"it ends with {found}"
        with open("/dev/full", "wb") as full:
            found = ended_into(program, [command], text, full)
        yield f"{command}: output is full", None if found[0] == WRITE_FAULT else f"it ends with {found}"
        found = without_streams(program, [command], text, [1])
        yield f"{command}: output is closed", None if found == (WRITE_FAULT, b"") else f"it ends with {found}"
        found = reader_that_goes(program, [command], text, 0)
        yield f"{command}: nobody reads", None if found == (WRITE_FAULT, b"") else f"it ends with {found}"
        found = without_streams(program, [command], text, [2])
        yield f"{command}: the errors' stream is closed", None if found == (DONE, due) else f"it ends with {found}"
    text = many_phases()
    due = due_of("run", text)[1]
    for size in (1, 1_000, 20_000):
        found = reader_that_goes(program, ["run"], text, size)
        yield f"run: the reader goes after {size} bytes", None if found == (WRITE_FAULT, due[:size]) else f"it ends with {found[0]}"
    found = full_pipe(program, ["run"], text)
    right = found[0] == WRITE_FAULT and is_part(found[1], due)
    yield "run: a full pipe that does not wait", None if right else f"it ends with {found[0]} after {len(found[1])} bytes"
    found = slow_reader(program, ["run"], text)
    yield "run: read byte by byte", None if found == (DONE, due) else f"it ends with {found[0]} after {len(found[1])} bytes"


def many_phases():
    """A file whose report is longer than a small pipe."""
    file = (CASES / "run" / "lone_load.json").read_text()
    phase = '{"events":[{"join":"load1"}]}'
    assert phase in file
    return file.replace(phase, ",".join([phase] + ['{"events":[]}'] * 999)).encode()


def tried(program, folder, everything):
    yield from reads(program, everything)
    yield from writes(program, folder, everything)
