#!/usr/bin/env python3
"""Plays the pages of service and wallet in headless Chromium, as a person does, and checks what they say.

    browser.py [PICTURE]

PICTURE becomes a PNG of the three pages. CHROMIUM names the program, where it is not on the path. Ends with 2 where
there is none that starts.
"""

from __future__ import annotations

import base64
import json
import os
import shutil
import subprocess
import sys
import tempfile
import threading
from typing import Any, Dict, List

import common
import issuer
import pages
import play
import service
import wallet

NAMES = ("chromium", "chromium-browser", "google-chrome", "google-chrome-stable")
WIDTH = 440


class Browser:
    """A browser that is spoken to over two pipes."""

    def __init__(self, program: str, folder: str) -> None:
        (read, self.to), (self.back, write) = os.pipe(), os.pipe()
        words = [program, "--headless=new", "--remote-debugging-pipe", f"--user-data-dir={folder}", "--hide-scrollbars"]
        words += ["--no-sandbox"] if os.geteuid() == 0 else []
        call = ["sh", "-c", f'exec "$@" 3<&{read} 4>&{write}', "sh", *words]
        self.run = subprocess.Popen(call, pass_fds=(read, write), stderr=subprocess.DEVNULL)
        os.close(read)
        os.close(write)
        self.rest, self.count, self.session, self.events = b"", 0, "", []  # type: bytes, int, str, List[str]
        target = self.ask("Target.createTarget", url="about:blank")["targetId"]
        self.session = self.ask("Target.attachToTarget", targetId=target, flatten=True)["sessionId"]
        self.ask("Page.enable")

    def close(self) -> None:
        self.ask("Browser.close")
        self.run.wait()

    def next(self) -> Dict[str, Any]:
        while b"\0" not in self.rest:
            piece = os.read(self.back, 1 << 16)
            if not piece:
                raise common.Refused("the browser ended")
            self.rest += piece
        first, self.rest = self.rest.split(b"\0", 1)
        found: Dict[str, Any] = json.loads(first)
        return found

    def ask(self, method: str, **params: Any) -> Dict[str, Any]:
        self.count += 1
        asked = {"id": self.count, "method": method, "params": params}
        asked.update({"sessionId": self.session} if self.session else {})
        os.write(self.to, json.dumps(asked).encode() + b"\0")
        while True:
            found = self.next()
            if found.get("id") == self.count:
                if "error" in found:
                    raise common.Refused(f"{method}: {found['error']}")
                return dict(found["result"])
            self.events.append(found.get("method", ""))

    def evaluate(self, expression: str) -> Any:
        return self.ask("Runtime.evaluate", expression=expression)["result"].get("value")

    def loaded(self) -> None:
        while "Page.loadEventFired" not in self.events:
            self.events.append(self.next().get("method", ""))

    def go(self, link: str) -> None:
        self.events = []
        self.ask("Page.navigate", url=link)
        self.loaded()

    def press(self, selector: str) -> None:
        """Presses a link or a button by the keyboard: it must be there without a mouse."""
        self.events = []
        self.evaluate(f"document.querySelector({json.dumps(selector)}).focus()")
        enter = {"key": "Enter", "code": "Enter", "windowsVirtualKeyCode": 13, "text": "\r"}
        for kind in ("keyDown", "keyUp"):
            self.ask("Input.dispatchKeyEvent", type=kind, **enter)
        self.loaded()

    def picture(self, width: int = WIDTH) -> bytes:
        self.ask("Emulation.setDeviceMetricsOverride", width=width, height=10, deviceScaleFactor=1, mobile=False)
        height = self.evaluate("document.documentElement.scrollHeight")
        self.ask("Emulation.setDeviceMetricsOverride", width=width, height=height, deviceScaleFactor=1, mobile=False)
        return base64.b64decode(self.ask("Page.captureScreenshot", format="png")["data"])

    def tree(self) -> List[str]:
        """Roles and names, as a screen reader has them."""
        nodes = [node for node in self.ask("Accessibility.getFullAXTree")["nodes"] if not node.get("ignored")]
        return [f"{node['role']['value']} {node.get('name', {}).get('value', '')}" for node in nodes]


def stand() -> str:
    """A service and a wallet at the ports that pages know. Answers the service's link."""
    issuer.make_key("issuer")
    wallets = {name: play.new_wallet(name) for name in play.PEOPLE}
    policy = play.policy_of("under.txt")
    play.issue("issuer", policy, wallets, "under")
    service.trust("shop", "issuer/public.pem", "issuer/root.json")
    shop = play.Running("shop", policy, play.ADULT, 8417)
    handler = type("Pages", (wallet.WalletPages,), {"wallet": wallets["ann"], "asked": {}})
    threading.Thread(target=pages.serve(handler, pages.WALLET_PORT).serve_forever, daemon=True).start()
    return shop.link


def expect(what: str, found: List[str], *wanted: str) -> None:
    missing = [text for text in wanted if not any(text in line for line in found)]
    print(f"{what}: {'yes' if not missing else missing}")
    if missing:
        raise common.Refused(what)


def visit(browser: Browser, link: str) -> List[bytes]:
    pictures = []
    browser.go(link)
    tree = browser.tree()
    expect("the service's page asks", tree, "heading Please show a credential", "birth is 2008-11-29", "link Open your")
    pictures.append(browser.picture())
    browser.press("a.button")
    tree = browser.tree()
    expect("the wallet's page asks too", tree, "birth is 2008-11-29", "button Show it", "button Do not show")
    pictures.append(browser.picture())
    browser.press("button[value=show]")
    expect("the service says what it learnt", browser.tree(), "heading You are in", "What it was not told")
    pictures.append(browser.picture())
    browser.go(link)
    browser.press("a.button")
    browser.press("button[value=no]")
    expect("who says no shows nothing", browser.tree(), "heading Nothing was shown")
    browser.go(link)
    browser.press("a.button")
    browser.press("button[value=show]")
    expect("who comes again is refused", browser.tree(), "this person was here before")
    return pictures


def beside(browser: Browser, pictures: List[bytes]) -> bytes:
    """Pictures side by side, as one."""
    shown = "".join(f"<img src=data:image/png;base64,{base64.b64encode(one).decode()}>" for one in pictures)
    style = "margin:0;display:flex;align-items:start;background:#f3f5f8"
    common.write("beside.html", f"<body style='{style}'>{shown}".encode())
    browser.go(f"file://{os.path.abspath('beside.html')}")
    return browser.picture(WIDTH * len(pictures))


def main(words: List[str]) -> int:
    program = os.environ.get("CHROMIUM") or next(filter(None, map(shutil.which, NAMES)), None)
    picture = os.path.abspath(words[0]) if words else None
    with tempfile.TemporaryDirectory() as folder:
        os.chdir(folder)
        try:
            browser = Browser(program or "chromium", os.path.join(folder, "browser"))
        except (OSError, common.Refused):
            print(f"{program} does not start" if program else "there is no Chromium: CHROMIUM names one")
            return 2
        try:
            pictures = visit(browser, stand())
            if picture:
                data = beside(browser, pictures)
                with open(picture, "wb") as file:
                    file.write(data)
        except common.Refused as refused:
            print(f"otherwise: {refused}")
            return 1
        finally:
            browser.close()
            os.chdir("/")
    return 0


if __name__ == "__main__":
    sys.exit(main(sys.argv[1:]))
