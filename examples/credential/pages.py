"""HTTP on the loopback, by the standard library: pages for people, JSON for programs.

Pages have no script, no cookie but one for each page that asks, and nothing from outside.
"""

from __future__ import annotations

import base64
import hashlib
import html
import http.client
import http.server
import json
import re
import time
from typing import Any, Callable, List, Optional, Tuple, Type
from urllib.parse import urlsplit

import common  # first: it finds lzk
import lzk
from common import MALFORMED, Refused

WALLET_PORT = 8418
MOST_BODY = 5_000_000
SECONDS, SECONDS_TO_START = 60, 5

STYLE = """
:root { color-scheme: light dark; --paper: #f3f5f8; --card: #fff; --ink: #1b2430; --soft: #52606d; --line: #d9dfe7; --accent: #1f5fbf; --on: #fff; --note: #fdf3dc; }
.wallet { --accent: #0b7261; }
@media (prefers-color-scheme: dark) {
  :root { --paper: #12171e; --card: #1b222c; --ink: #e8edf3; --soft: #a9b5c2; --line: #323d4a; --accent: #8ab8ff; --on: #10151b; --note: #3a3018; }
  .wallet { --accent: #62d2bd; }
}
* { box-sizing: border-box; }
body { margin: 0; min-height: 100vh; padding: 2rem 1rem; background: var(--paper); color: var(--ink); font: 1.0625rem/1.55 system-ui, sans-serif; }
main { max-width: 36rem; margin: 0 auto; background: var(--card); border: 1px solid var(--line); border-top: .4rem solid var(--accent); border-radius: .75rem; padding: 1.5rem 2rem 2rem; }
.who { margin: 0; color: var(--accent); font-weight: 600; }
h1 { margin: .25rem 0 1rem; font-size: 1.65rem; line-height: 1.25; }
h2 { margin: 1.5rem 0 .5rem; font-size: 1.0625rem; }
ul { margin: 0; padding: 0; list-style: none; }
li { padding: .45rem 0 .45rem 2rem; border-top: 1px solid var(--line); text-indent: -1.6rem; overflow-wrap: anywhere; }
li::before { content: "\\2713"; content: "\\2713" / ""; display: inline-block; width: 1.6rem; text-indent: 0; color: var(--accent); font-weight: 700; }
.no li { color: var(--soft); }
.no li::before { content: "\\2013"; content: "\\2013" / ""; color: var(--soft); }
pre { white-space: pre-wrap; overflow-wrap: anywhere; }
.warning { background: var(--note); border-radius: .5rem; padding: .6rem 1rem; }
.small { color: var(--soft); font-size: .9375rem; }
a { color: var(--accent); }
.button, button { display: inline-block; margin: 1.25rem .5rem 0 0; padding: .6rem 1.4rem; font: inherit; font-weight: 600; text-decoration: none; color: var(--on); background: var(--accent); border: 2px solid var(--accent); border-radius: .5rem; cursor: pointer; }
button.quiet { color: var(--accent); background: none; }
:focus-visible { outline: 3px solid var(--accent); outline-offset: 3px; }
"""
STYLE_DIGEST = base64.b64encode(hashlib.sha256(STYLE.encode()).digest()).decode()
# Nothing is loaded, and no other site may frame a page and so borrow a click.
HEADERS = {
    "Content-Security-Policy": f"default-src 'none'; style-src 'sha256-{STYLE_DIGEST}'; base-uri 'none'; frame-ancestors 'none'",
    "Referrer-Policy": "no-referrer",
    "X-Content-Type-Options": "nosniff",
    "Cache-Control": "no-store",
}


def plain(text: str) -> str:
    """A line as HTML, with all but signs of ASCII by its number: else one could turn the letters after it around."""
    return html.escape(common.escaped(text))


def lines_of(text: str) -> str:
    return "\n".join(plain(line) for line in text.expandtabs().split("\n"))


def listed(head: str, items: List[str], kind: str = "yes") -> str:
    rows = "".join(f"<li>{plain(item)}</li>" for item in items)
    return f"<section class={kind}><h2>{plain(head)}</h2><ul>{rows}</ul></section>" if items else ""


class Server(http.server.ThreadingHTTPServer):
    """A server at 127.0.0.1. Its name is what others connect to."""

    daemon_threads = True

    @property
    def name(self) -> str:
        return f"127.0.0.1:{self.server_address[1]}"


def serve(handler: Type[Handler], port: int) -> Server:
    try:
        return Server(("127.0.0.1", port), handler)
    except (OSError, OverflowError) as error:
        raise Refused(f"port {port} cannot be had: {error}") from None


class Handler(http.server.BaseHTTPRequestHandler):
    """What pages of wallets and services share. `who` and `kind` are of the party."""

    who, kind, timeout = "", "service", SECONDS
    server: Server

    def log_message(self, *_: object) -> None:
        """Nothing is logged: who came when is nobody's business."""

    def reply(self, work: Callable[[], None]) -> None:
        """Does what a request asks for, and says on a page why it is refused."""
        # Another host's name that leads here would make another site's pages this one's.
        if self.headers.get("Host") != self.server.name:
            return self.put(421, "text/plain", b"this is another host\n")
        try:
            work()
        except (Refused, lzk.Error) as refused:
            self.page("That did not work", f"<p>{plain(str(refused))}</p>", status=403)
        except (OSError, *MALFORMED):
            self.page("That did not work", "<p>The request has not its form.</p>", status=400)

    def body(self) -> bytes:
        size = int(self.headers.get("Content-Length") or 0)
        if not 0 <= size <= MOST_BODY:
            raise Refused("the request is too long")
        return self.rfile.read(size)

    def cookies(self) -> List[str]:
        return self.headers.get("Cookie", "").split("; ")

    def put(self, status: int, kind: str, body: bytes, **headers: str) -> None:
        self.send_response(status)
        more = {name.replace("_", "-"): value for name, value in headers.items()}
        for name, value in {**HEADERS, "Content-Type": kind, "Content-Length": str(len(body)), **more}.items():
            self.send_header(name, value)
        self.end_headers()
        self.wfile.write(body)

    def json(self, value: Any, status: int = 200) -> None:
        self.put(status, "application/json", json.dumps(value).encode())

    def page(self, title: str, *parts: str, status: int = 200, **headers: str) -> None:
        head = '<meta charset=utf-8><meta name=viewport content="width=device-width">'
        head += f"<title>{plain(title)}</title><style>{STYLE}</style>"
        body = f"<main><p class=who>{plain(self.who)}</p><h1>{plain(title)}</h1>{''.join(parts)}</main>"
        text = f"<!doctype html><html lang=en><head>{head}</head><body class={self.kind}>{body}</body></html>"
        self.put(status, "text/html; charset=utf-8", text.encode(), **headers)

    def lead(self, link: str) -> None:
        """Leads the browser to another page."""
        self.put(303, "text/plain", b"", Location=link)


def parts_of(link: str) -> Tuple[str, str]:
    """Host and path of a link. What is not on this machine needs TLS, which this example leaves out. A host has one name:
    by 08417 for 8417 it would get the pseudonyms of another."""
    parts = urlsplit(link)
    if parts.scheme != "http" or not re.fullmatch(r"127\.0\.0\.1:[1-9][0-9]{0,4}", parts.netloc):
        raise Refused("a link here begins with http://127.0.0.1: and a port")
    return parts.netloc, parts.path


def call(host: str, path: str, body: Optional[Any] = None) -> Tuple[int, Any]:
    """What a host answers, as a status and JSON. It follows no redirect: whom it speaks to is the host. A service that
    has just been started gets some seconds."""
    until = time.monotonic() + SECONDS_TO_START
    while True:
        connection = http.client.HTTPConnection(host, timeout=SECONDS)
        try:
            connection.request("GET" if body is None else "POST", path, None if body is None else json.dumps(body))
            answer = connection.getresponse()
            return answer.status, json.loads(answer.read(MOST_BODY))
        except ConnectionRefusedError:
            if time.monotonic() > until:
                raise Refused(f"nothing is at {host}") from None
            time.sleep(0.1)
        except OSError as error:
            raise Refused(f"{host} does not answer: {error}") from None
        except (http.client.HTTPException, *MALFORMED):
            raise Refused(f"what {host} answers has not its form") from None
        finally:
            connection.close()
