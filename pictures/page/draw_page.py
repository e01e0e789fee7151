"""Takes the pictures of the page of a live market: page_wide.png and page_narrow.png beside this file's folder.

    COGMAULA_LIVE=.. /usr/bin/python3 pictures/page/draw_page.py

It runs a market of twelve real nodes over a mosquitto of its own, and takes the pictures by Chromium without a window. It needs Debian's
mosquitto, chromium, python3-paho-mqtt and python3-websockets, and the program live. The pictures have times and a session in them, and
each Chromium draws other bytes. So no check draws them again: after a change of the page, run this and look at them.
"""

import asyncio
import base64
import json
import subprocess
import sys
import tempfile
from pathlib import Path

PICTURES = Path(__file__).resolve().parents[1]
sys.path[:0] = [str(PICTURES.parent / "python"), str(PICTURES.parent / "python" / "tests" / "live")]

import markets  # noqa: E402
from brokers import Mosquitto, free_port, live_program, wait_until  # noqa: E402
from looking import CHROMIUM, get  # noqa: E402
from websockets import connect  # noqa: E402

from cogmaula.live import PageSettings  # noqa: E402

# Who is child of whom, and under which number.
PLACES = {
    "auctioneer": ("auctioneer", None, None),
    "north": ("relay", "auctioneer", 1),
    "south": ("relay", "auctioneer", 2),
    "windmill": ("device", "auctioneer", 3),
    "store": ("device", "auctioneer", 4),
    "house1": ("device", "north", 1),
    "heatpump": ("device", "north", 2),
    "charger": ("device", "north", 3),
    "roof": ("device", "north", 4),
    "house2": ("device", "south", 1),
    "bakery": ("device", "south", 2),
    "panels": ("device", "south", 3),
}
LIMITS = {"north": {"floor": -4_000, "ceiling": 6_000}, "south": {"floor": -3_000, "ceiling": 3_000}}
# The power of each device in watts, up to a step and from there on.
OFFERS = {
    "windmill": [-6_000] * 10,
    "store": [2_000] * 4 + [0] * 2 + [-2_000] * 4,
    "house1": [2_500] * 10,
    "heatpump": [3_000] * 5 + [0] * 5,
    "charger": [7_400] * 3 + [3_700] * 3 + [0] * 4,
    "roof": [-2_000] * 10,
    "house2": [1_200] * 10,
    "bakery": [5_000] * 7 + [0] * 3,
    "panels": [-6_000] * 10,
}
# The width and the greatest height of each picture, in pixels of the page.
SIZES = {"page_wide.png": (1280, 1000), "page_narrow.png": (390, 1400)}


async def draw(address: str, sizes: dict[str, tuple[int, int]], word: str) -> None:
    """Takes the pictures of all of a page once it has a word, by the protocol of Chromium's own tools."""
    port = free_port()
    with tempfile.TemporaryDirectory() as folder:
        words = ["--headless", "--no-sandbox", "--hide-scrollbars", f"--remote-debugging-port={port}", f"--user-data-dir={folder}"]
        browser = subprocess.Popen([str(CHROMIUM), *words, address], stderr=subprocess.DEVNULL)
        try:
            await take(port, sizes, word)
        finally:
            browser.terminate()
            browser.wait()


async def take(port: int, sizes: dict[str, tuple[int, int]], word: str) -> None:
    """Lets the browser of this port take the pictures."""
    for _ in range(600):
        try:
            found = [load for load in json.loads(get(port, "/json")[2]) if load["type"] == "page"]
            break
        except OSError:
            await asyncio.sleep(0.1)
    async with connect(found[0]["webSocketDebuggerUrl"], max_size=None, ping_interval=None) as tools:

        async def ask(method: str, **members: object) -> dict:
            await tools.send(json.dumps({"id": 1, "method": method, "params": members}))
            while "id" not in (answer := json.loads(await tools.recv())):
                pass
            return answer["result"]

        while word not in str(await ask("Runtime.evaluate", expression="document.body?.innerText")):
            await asyncio.sleep(0.5)
        for file, (wide, most) in sizes.items():
            high = 800
            for _ in range(2):
                await ask("Emulation.setDeviceMetricsOverride", width=wide, height=high, deviceScaleFactor=1, mobile=False)
                await asyncio.sleep(2)
                high = min(most, (await ask("Page.getLayoutMetrics"))["cssContentSize"]["height"])
            found = await ask("Page.captureScreenshot", format="png")
            (PICTURES / file).write_bytes(base64.b64decode(found["data"]))


def main() -> None:
    """Runs the market, and takes both pictures."""
    markets.PLACES.update(PLACES)
    with tempfile.TemporaryDirectory() as name, Mosquitto(Path(name) / "broker") as broker:
        with markets.Market(broker.port, live_program(), Path(name)) as market:
            for node in PLACES:
                page = {"page": PageSettings("127.0.0.1:0", whole=True)} if node == "auctioneer" else {}
                market.start(node, **page, **LIMITS.get(node, {}))
            market.offers(**OFFERS)
            # North takes 7,200 W at step 4, where the market clears. At step 5 it takes 4,200 W, which its ceiling allows.
            market.settles_at(4, windmill=-6_000, store=0, bakery=5_000, panels=-6_000, house2=1_200)
            market.settles_at(5, house1=2_500, heatpump=0, charger=3_700, roof=-2_000)
            port = market.nodes["auctioneer"].showing.port
            wait_until(lambda: json.loads(get(port, "/view")[2])["lost_since"] is None, "the page has read the market")
            asyncio.run(draw(f"http://127.0.0.1:{port}/", SIZES, "store"))


if __name__ == "__main__":
    main()
