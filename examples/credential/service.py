#!/usr/bin/env python3
"""The service: asks by a page or by JSON, with a fresh nonce each time, and checks the answers.

    service.py trust FOLDER ISSUER_KEY ROOT [only]
    service.py serve FOLDER ISSUER_KEY POLICY PORT [NAME=VALUE ..]

`trust` takes a root that the issuer signed, with `only` in the place of those that it trusted by this key. `serve`
needs a value for each name after `at most` and `at least` in POLICY, as TODAY=20261129. A name after `as` may have one;
without it the holder tells the record's own. The tags of pseudonyms are made of the service's name, which is the host
and port that wallets connect to. FOLDER keeps the roots that it trusts, and the digests and pseudonyms that were seen.
Every value is the service's own, or one that it asks for.
"""

from __future__ import annotations

import json
import os
import re
import secrets
import sys
import threading
from typing import Any, Callable, Dict, List, NamedTuple, Tuple
from urllib.parse import urlencode

import common  # first: it finds lzk
import lzk
import pages
from common import Policy, Refused

MOST_OPEN = 10_000
COOKIE = "HttpOnly; SameSite=Lax; Path=/in; Max-Age=600"


class Session(NamedTuple):
    """A request that is open, and the browser for whose page it was made, where it was made for one."""

    request: Dict[str, Any]
    visit: str


class Service:
    def __init__(self, folder: str, name: str, issuer_key: str, policy: Policy, values: Dict[str, str]) -> None:
        self.folder, self.name, self.issuer_key, self.policy = folder, name, issuer_key, policy
        self.values = checked(policy, values)
        self.open: Dict[str, Session] = {}
        self.lock = threading.Lock()
        os.makedirs(folder, 0o700, exist_ok=True)

    def ask(self, visit: str = "") -> Dict[str, Any]:
        """Opens a session. Of too many the oldest is closed."""
        nonce = secrets.token_hex(16)
        request = {"service": self.name, "policy": self.policy.text, "values": self.values, "nonce": nonce}
        with self.lock:
            while len(self.open) >= MOST_OPEN:
                self.open.pop(next(iter(self.open)))
            self.open[nonce] = Session(request, visit)
        return request

    def asked(self, nonce: str) -> Dict[str, Any]:
        with self.lock:
            if nonce not in self.open:
                raise Refused("no such session is open")
            return self.open[nonce].request

    def answer(self, answer: Any) -> Tuple[List[str], str]:
        """What the service learnt, and the browser that may know it. The session is over, whatever the answer is."""
        try:
            with self.lock:
                session = self.open.pop(answer["nonce"], None)
            if session is None:
                raise Refused("no such session is open")
            return self.judge(answer), session.visit
        except common.MALFORMED:
            raise Refused("the answer has not its form") from None

    def judge(self, answer: Any) -> List[str]:
        head, pseudonyms, told = answer["digest"], answer["pseudonyms"], dict(answer["told"])
        # One form alone, so that what was seen is known again.
        if not all(re.fullmatch(common.DIGEST, word) for word in (head, *pseudonyms)):
            raise Refused("a digest has 64 digits, in lower case")
        self.check_issuer(head, answer["signature"])
        asked_for = {show.value for show in self.policy.told(self.values)}
        if set(told) != asked_for or len(pseudonyms) != len(self.policy.tags()):
            raise Refused("what is told is not what was asked for")
        if not all(re.fullmatch(common.WORD, word) for word in told.values()):
            raise Refused("what is told is no word")
        # What was shown, as docs/POLICY.md has it. Of the wallet it takes only what the wallet alone can know.
        values = {**self.values, **told, **{name: common.tag_of(self.name).hex() for name in self.policy.tags()}}
        lines = [f"root {head}" if self.policy.depth else f"digest {head}"]
        lines += [f"pseudonym {word}" for word in pseudonyms] + [f"{name} {word}" for name, word in values.items()]
        shown = "".join(f"{line}\n" for line in lines)
        try:
            session = common.session_of(self.name, answer["nonce"])
            self.policy.proofs.verify(shown, bytes.fromhex(answer["proof"]), session)
        except (lzk.Rejected, lzk.NoShown):
            raise Refused("the proof does not hold for this session") from None
        # First what may be refused yet: who is remembered is let in.
        learnt = self.policy.sentences(self.values, told)
        self.remember([*pseudonyms] if self.policy.depth else [head, *pseudonyms])
        return learnt

    def check_issuer(self, head: str, signature: str) -> None:
        if self.policy.depth:
            if rooted(self.policy.depth, head) not in common.words_in(self.path(roots_of(self.issuer_key))):
                raise Refused("this service trusts no such root")
            return
        signed = common.SIGNED_RECORD + bytes.fromhex(head)
        if not common.is_signed(self.issuer_key, signed, bytes.fromhex(signature)):
            raise Refused("the issuer did not sign this record")

    def path(self, name: str) -> str:
        return os.path.join(self.folder, name)

    def remember(self, words: List[str]) -> None:
        """Each digest and each pseudonym is for once. A pseudonym knows somebody again by whatever record."""
        with common.alone(self.folder):
            if not set(common.words_in(self.path("seen"))).isdisjoint(words):
                raise Refused(f"this {'person was here' if self.policy.tags() else 'record was shown'} before")
            common.add(self.path("seen"), words)


def roots_of(issuer_key: str) -> str:
    """The name of the list of an issuer's roots. A key is for one layout of records, so no other key's root will do."""
    return "roots-" + common.digest(common.read_text(issuer_key).encode()).hex()


def rooted(depth: int, root: str) -> str:
    return f"{depth}-{root}"


def checked(policy: Policy, values: Dict[str, str]) -> Dict[str, str]:
    """Values of a request, each of which is what the policy shows by its name."""
    names = {show.value for show in policy.shows if show.way in ("most", "least", "as")}
    for show in policy.shows:
        field = policy.fields[show.field]
        if show.way in ("most", "least") and show.value not in values:
            raise Refused(f"the policy compares with {show.value}: add {show.value}=YYYYMMDD")
        value = values.get(show.value)
        if show.way == "pseudonym" and value is not None:
            raise Refused(f"{show.value} is the service's tag, which is made of its name")
        if value is None:
            continue
        if field.kind == "date" and not re.fullmatch("[0-9]{1,10}", value):
            raise Refused(f"{show.value} is a date as the number YYYYMMDD, and not {value}")
        if field.kind == "text" and not (len(value.encode()) == field.size and re.fullmatch(common.WORD, value)):
            raise Refused(f"{show.value} is a text of {field.size} bytes in one word, and not {value}")
    for name in values.keys() - names:
        raise Refused(f"the policy has no value {name}; it has {', '.join(sorted(names)) or 'none'}")
    return values


# ---- pages


class Door(NamedTuple):
    """What was learnt in a session, for the browser that has the word of the session's page."""

    nonce: str
    visit: str
    learnt: List[str]


class ServicePages(pages.Handler):
    """A page that asks, and one that says what was learnt, to the browser alone that asked."""

    service: Service
    doors: Dict[str, Door]

    def do_GET(self) -> None:
        where, _, word = self.path[1:].partition("/")
        if self.path == "/":
            self.reply(self.front)
        elif where == "ask":
            self.reply(lambda: self.tell(lambda: self.service.asked(word) if word else self.service.ask()))
        elif where == "in":
            self.reply(lambda: self.enter(word))
        else:
            self.reply(lambda: self.page("There is no such page", status=404))

    def do_POST(self) -> None:
        if self.path == "/answer":
            self.reply(lambda: self.tell(self.take))
        else:
            self.reply(lambda: self.page("There is no such page", status=404))

    def tell(self, work: Callable[[], Dict[str, Any]]) -> None:
        """JSON for a wallet: what it asked for, or why it is refused."""
        try:
            self.json(work())
        except Refused as refused:
            self.json({"refused": str(refused)}, 403)

    def front(self) -> None:
        """The word by which the browser is known again is drawn for each page, and never taken from a request: cookies
        know no ports, so whatever else is at this host reads and writes them too."""
        visit = secrets.token_hex(16)
        request = self.service.ask(visit)
        ask = urlencode({"ask": f"http://{self.service.name}/ask/{request['nonce']}"})
        policy = self.service.policy
        self.page(
            "Please show a credential",
            pages.listed("What is asked for", policy.sentences(self.service.values)),
            pages.listed("What is not asked for", policy.not_told(), "no"),
            f'<p><a class=button href="http://127.0.0.1:{pages.WALLET_PORT}/?{ask}">Open your wallet</a></p>',
            "<p class=small>Your wallet reads the request itself, and shows nothing before you agree.</p>",
            "<details class=small><summary>The policy to the letter</summary>",
            f"<pre>{pages.lines_of(policy.text)}</pre></details>",
            Set_Cookie=f"visit-{request['nonce']}={visit}; {COOKIE}",
        )

    def take(self) -> Dict[str, Any]:
        """An answer, from a wallet. Who has a session's link may answer it; the browser that opened it is let in."""
        try:
            answer = json.loads(self.body())
        except common.MALFORMED:
            raise Refused("the answer has not its form") from None
        learnt, visit = self.service.answer(answer)
        door = secrets.token_hex(16)
        while len(self.doors) >= MOST_OPEN:
            self.doors.pop(next(iter(self.doors)))
        self.doors[door] = Door(answer["nonce"], visit, learnt)
        return {"learnt": learnt, "door": door}

    def enter(self, word: str) -> None:
        door = self.doors.get(word)
        if door is None or not door.visit or f"visit-{door.nonce}={door.visit}" not in self.cookies():
            raise Refused("no wallet has shown anything for this browser here")
        self.page(
            "You are in",
            pages.listed(f"What {self.service.name} learnt", door.learnt),
            pages.listed("What it was not told", self.service.policy.not_told(), "no"),
            "<p class=small>It keeps pseudonyms and digests, so that each is let in once.</p>",
        )


def pages_of(service: Service) -> type:
    return type("Pages", (ServicePages,), {"service": service, "doors": {}, "who": service.name})


# ---- commands


def trust(folder: str, issuer_key: str, root_file: str, *words: str) -> None:
    """Takes a root that the issuer signed for one of those under which a record may be shown."""
    found = common.read_json(root_file)
    root, depth = bytes.fromhex(found["root"]), int(found["levels"])
    if not common.is_signed(issuer_key, common.signed_root(depth, root), bytes.fromhex(found["signature"])):
        raise Refused("the issuer did not sign this root")
    os.makedirs(folder, 0o700, exist_ok=True)
    if words:
        common.write(os.path.join(folder, roots_of(issuer_key)), b"")
    common.add(os.path.join(folder, roots_of(issuer_key)), [rooted(depth, root.hex())])
    print("trusted")


def values_of(words: Tuple[str, ...]) -> Dict[str, str]:
    values: Dict[str, str] = {}
    for word in words:
        name, sign, value = word.partition("=")
        if not sign or name in values:
            raise Refused(f"{word}: wanted NAME=VALUE, once for each name")
        values[name] = value
    return values


def serve(folder: str, issuer_key: str, policy_file: str, port: str, *words: str) -> None:
    policy, values = Policy(common.read_text(policy_file)), values_of(words)
    with pages.serve(ServicePages, int(port)) as server:
        server.RequestHandlerClass = pages_of(Service(folder, server.name, issuer_key, policy, values))
        policy.proofs.circuit()  # takes seconds for many levels: wallets that connect wait until then
        print(f"the service is at http://{server.name}/", flush=True)
        server.serve_forever()


def main(words: List[str]) -> int:
    if words[:1] == ["trust"] and (len(words) == 4 or words[4:] == ["only"]):
        return common.ended(trust, words[1:], "refused: ")
    if words[:1] == ["serve"] and len(words) >= 5:
        return common.ended(serve, words[1:], "nothing is asked: ")
    print(__doc__)
    return 2


if __name__ == "__main__":
    try:
        sys.exit(main(sys.argv[1:]))
    except KeyboardInterrupt:
        sys.exit(0)
