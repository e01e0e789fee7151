#!/usr/bin/env python3
"""Tries a market behind socat, socket activation and MQTT, with clients that mean well and clients that do not.

    python3 try.py ./market serve

The words are the command that answers a stream on its standard input and output. It needs Debian's packages socat, systemd,
mosquitto and python3-paho-mqtt, and leaves out what is not there. It prints a line for each thing tried.
"""

import json
import os
import queue
import shutil
import signal
import socket
import struct
import subprocess
import sys
import tempfile
import threading
import time
from pathlib import Path

from client import Market, Price, command_files, socket_files

HERE = Path(__file__).resolve().parent
SECONDS = 20
MEGABYTE = 1 << 20
STEPS = 10


def say(text):
    print(text, flush=True)


def session(open_files, rounds=20):
    """A client that means well: so many clearings of two bids. The greatest time of one in milliseconds."""
    slowest = 0.0
    with Market(*open_files(), 0, STEPS - 1, STEPS) as market:
        for number in range(1, rounds + 1):
            begin = time.monotonic()
            market.bid(1, [100] * STEPS)
            market.bid(2, [0] * 4 + [-150] * 6)
            answers = [market.answer(SECONDS) for _ in range(market.ask_to_clear())]
            assert answers == [Price(child, number, number, 4) for child in (1, 2)], answers
            slowest = max(slowest, time.monotonic() - begin)
    return f"{rounds} clearings of two bids, the slowest took {1000 * slowest:.1f} ms"


def connected(address):
    if "/" in address:
        one = socket.socket(socket.AF_UNIX)
        one.connect(address)
    else:
        host, _, port = address.rpartition(":")
        one = socket.create_connection((host, int(port)))
    one.settimeout(SECONDS)
    return one


HELLO = struct.pack(">BiiH", 1, 0, STEPS - 1, STEPS)
CLEAR = b"\x04"


def read_to_end(one):
    data = b""
    try:
        while piece := one.recv(65_536):
            data += piece
    except ConnectionError:
        pass
    return data


def half_a_frame(address):
    """A client that stops within a frame, while another is served, and then closes."""
    one = connected(address)
    one.sendall(HELLO + b"\x02\x00")
    other = session(lambda: socket_files(address), 5)
    one.shutdown(socket.SHUT_WR)
    answer = read_to_end(one)
    assert answer == struct.pack(">BQ", 8, len(HELLO)), answer
    return f"another client had {other}; once closed it was told of byte {len(HELLO)}"


def garbage(address):
    """A client that sends a megabyte of random bytes."""
    one = connected(address)
    data = bytes([200]) + os.urandom(MEGABYTE)
    try:
        one.sendall(data)
        one.shutdown(socket.SHUT_WR)
    except OSError:
        pass
    answer = read_to_end(one)
    assert answer in (struct.pack(">BQ", 8, 0), b""), answer
    told = "it was told of byte 0" if answer else "its connection was reset"
    return f"{told}; another client then had {session(lambda: socket_files(address), 5)}"


def flood(address, megabytes=8):
    """A client that asks for clearings as fast as it can, and reads."""
    one = connected(address)
    received = []
    reading = threading.Thread(target=lambda: received.append(len(read_to_end(one))))
    reading.start()
    begin = time.monotonic()
    one.sendall(HELLO)
    for _ in range(megabytes):
        one.sendall(CLEAR * MEGABYTE)
    one.shutdown(socket.SHUT_WR)
    reading.join()
    took = time.monotonic() - begin
    assert received == [megabytes * MEGABYTE], received
    return f"{megabytes * MEGABYTE} frames were answered in {took:.1f} s"


def never_reads(address):
    """A client that asks for clearings and never reads the answers: it is stopped by its own connection."""
    one = connected(address)
    one.sendall(HELLO)
    one.setblocking(False)
    sent, since = 0, time.monotonic()
    while time.monotonic() - since < 1:
        try:
            sent += one.send(CLEAR * 65_536)
            since = time.monotonic()
        except BlockingIOError:
            time.sleep(0.01)
        if sent > 256 * MEGABYTE:
            raise AssertionError("it could send without end")
    other = session(lambda: socket_files(address), 5)
    one.close()
    return f"it could send {sent} bytes, and then no more; another client then had {other}"


def last_answers(address, times=100):
    """Clients that stop within a frame, one behind the other: each has to be told, though the program ends at once."""
    for _ in range(times):
        one = connected(address)
        one.sendall(HELLO + b"\x02\x00")
        one.shutdown(socket.SHUT_WR)
        answer = read_to_end(one)
        assert answer == struct.pack(">BQ", 8, len(HELLO)), answer
        one.close()
    return f"all of {times} bad frames were told"


CLIENTS = [half_a_frame, last_answers, garbage, flood, never_reads]


def wait_for(address):
    """Waits until somebody listens; the connection made for it is a stream without a byte."""
    for _ in range(200):
        try:
            connected(address).close()
            return
        except OSError:
            time.sleep(0.05)
    raise AssertionError(f"nobody listens at {address}")


class Started:
    """Processes of a trial, each with all that it started, which end with it."""

    def __init__(self, *commands, **settings):
        settings |= {"start_new_session": True, "stderr": subprocess.DEVNULL}
        self.children = [subprocess.Popen(command, **settings) for command in commands]

    def __enter__(self):
        return self.children

    def __exit__(self, *_):
        for child in self.children:
            try:
                os.killpg(child.pid, signal.SIGTERM)
            except ProcessLookupError:
                pass
            child.wait()


def try_address(name, command, address):
    with Started(command):
        wait_for(address)
        say(f"{name}: {session(lambda: socket_files(address))}")
        for client in CLIENTS:
            say(f"{name}, {client.__name__}: {client(address)}")


def free_port():
    with socket.socket() as one:
        one.bind(("127.0.0.1", 0))
        return one.getsockname()[1]


def try_sockets(words, folder):
    quoted = " ".join(words)
    if shutil.which("socat"):
        port, path = free_port(), f"{folder}/market.socket"
        listen = f"TCP-LISTEN:{port},bind=127.0.0.1,reuseaddr,fork,max-children=16,nodelay,keepalive"
        try_address("socat over TCP", ["socat", listen, f"EXEC:{quoted},nofork"], f"127.0.0.1:{port}")
        listen = f"UNIX-LISTEN:{path},fork,mode=660,max-children=16"
        try_address("socat over a socket's path", ["socat", listen, f"EXEC:{quoted},nofork"], path)
    if shutil.which("systemd-socket-activate"):
        port = free_port()
        activate = ["systemd-socket-activate", "--accept", "--inetd", "-l", f"127.0.0.1:{port}", *words]
        try_address("socket activation", activate, f"127.0.0.1:{port}")


def message(client, device, demands):
    payload = demands if isinstance(demands, (bytes, str)) else json.dumps(demands)
    client.publish(f"market/bid/{device}", payload, qos=1, retain=True)


def try_broker(words, folder):
    import paho.mqtt.client as mqtt

    from bridge import mqtt_client

    port = free_port()
    Path(folder, "broker").write_text(f"listener {port} 127.0.0.1\nallow_anonymous true\nmax_queued_messages 0\n")
    broker = shutil.which("mosquitto") or "/usr/sbin/mosquitto"
    with Started([broker, "-c", f"{folder}/broker"]):
        wait_for(f"127.0.0.1:{port}")
        came, client = queue.Queue(), mqtt_client()
        client.on_connect = lambda client, *_: client.subscribe("market/price/+")
        client.on_message = lambda _, __, message: came.put((message.topic, json.loads(message.payload)))
        client.connect("127.0.0.1", port)
        client.loop_start()
        bridge = [sys.executable, str(HERE / "bridge.py"), f"127.0.0.1:{port}", "0", "9", "10", "0.2", "--", *words]

        def prices(due):
            found = {}
            while found != due:
                topic, told = came.get(timeout=SECONDS)
                found[topic] = (told["price"], told["bid"])
            return found

        with Started(bridge):
            time.sleep(1)
            message(client, 1, [100] * STEPS)
            message(client, 2, [0] * 4 + [-150] * 6)
            prices({"market/price/1": (4, 1), "market/price/2": (4, 1)})
            say("MQTT: two devices bid, and each had its price")
            for wrong in ("garbage", b"\xff\x00", [1, 2], [0] * 9 + [1], [1.5] * 10, [10**10] * 10, "[" * 150, "9" * 100_000):
                message(client, 2, wrong)
            for topic in ("market/bid/0", "market/bid/257", "market/bid/x", "market/bid/01"):
                client.publish(topic, json.dumps([0] * 10), qos=1)
            message(client, 2, [0] * 6 + [-150] * 4)
            prices({"market/price/1": (6, 1), "market/price/2": (6, 2)})
            say("MQTT: messages that are no bids were dropped, and the next bid counted")
            begin = time.monotonic()
            for number in range(5_000):
                message(client, 3, [number % 50] * STEPS)
            message(client, 3, [50] * STEPS)
            while (told := came.get(timeout=SECONDS))[0] != "market/price/3" or told[1]["bid"] < 4_000:
                pass
            took = time.monotonic() - begin
            say(f"MQTT: of a flood of 5,000 bids of one device bid {told[1]['bid']} had a price after {took:.1f} s")
            message(client, 3, b"")
            message(client, 2, [0] * 4 + [-150] * 6)
            while (told := came.get(timeout=SECONDS))[0] != "market/price/1" or told[1]["price"] != 4:
                pass
            say("MQTT: the device left, and the others had their price")
        while not came.empty():
            came.get()
        with Started(bridge):
            while (told := came.get(timeout=SECONDS))[1]["clearing"] != 1 or told[1]["price"] != 4:
                pass
            say("MQTT: started anew, the bridge had the bids again from the broker, and the price was the same")
        client.loop_stop()


def main(words):
    words = [str(Path(words[0]).resolve()) if "/" in words[0] else words[0], *words[1:]]
    say(f"pipes: {session(lambda: command_files(words))}")
    with tempfile.TemporaryDirectory() as folder:
        try_sockets(words, folder)
        try:
            try_broker(words, folder)
        except ImportError:
            say("MQTT: left out, since python3-paho-mqtt is not installed")


if __name__ == "__main__":
    if len(sys.argv) < 2:
        sys.exit(__doc__)
    main(sys.argv[1:])
