#!/usr/bin/env python3
"""An agent of one device: bids by WebSocket, and prints the power that it is told, in watts.

    python3 agent.py wss://market.example:8443 house TOKEN-FILE ca.crt 200 200 200 200 0 0 0 0 0 0

The numbers are what the device would take at each step of the market, below 0 to give. It needs Debian's python3-websockets.
"""

import asyncio
import json
import ssl
import sys

import websockets


async def repeat(hub, demands):
    """Bids, and says the same bid again each minute: the hub lets an agent go that hangs."""
    while True:
        await hub.send(json.dumps({"bidUpdate": {"bidNumber": 1, "demandArray": demands}}))
        await asyncio.sleep(60)


async def bid(url, agent, token, trust, demands):
    """Bids, and prints each answer, until the hub ends the connection."""
    async with websockets.connect(url, ssl=trust) as hub, asyncio.TaskGroup() as tasks:
        await hub.send(json.dumps({"agentId": agent, "token": token}))
        bidding = tasks.create_task(repeat(hub, demands))
        async for line in hub:
            told = json.loads(line)
            if "priceUpdate" in told:
                price = told["priceUpdate"]
                print(f"price {price['price']}: {price['power']} W by bid {price.get('bidNumber')}", flush=True)
            elif "error" in told:
                print(told["error"], file=sys.stderr, flush=True)
        bidding.cancel()


async def main(url, agent, token_file, ca, *demands):
    with open(token_file) as file:
        token = file.read().strip()
    trust = ssl.create_default_context(cafile=ca) if url.startswith("wss:") else None
    while True:
        try:
            await bid(url, agent, token, trust, [int(demand) for demand in demands])
        except* (OSError, websockets.WebSocketException) as errors:
            print(f"{url}: {errors.exceptions[0]}", file=sys.stderr, flush=True)
        await asyncio.sleep(2)


asyncio.run(main(*sys.argv[1:]))
