#!/usr/bin/env python3
"""The wallet: draws a secret, keeps what the issuer gave, and shows a service what its holder agrees to.

    wallet.py new WALLET
    wallet.py take WALLET GIVEN [ROOT]
    wallet.py show WALLET LINK [yes] [tell=FIELD ..]
    wallet.py page WALLET [PORT]

`new` prints the seal of the secret, which the issuer gets. GIVEN is what it gives; ROOT is the root that it has
published, for a record under one. LINK is a service's, as http://127.0.0.1:8417/. `show` says what the service would
learn and asks its holder. With `yes` it does not ask, and each field that is told as it is needs a tell=FIELD. `page`
does the same in the browser: the pages of services link to it.
"""

from __future__ import annotations

import os
import re
import secrets
import sys
import urllib.parse
from typing import Any, Dict, List, NamedTuple, Optional, Tuple

import common
import pages
import tree
from common import Field, Policy, Refused

MOST_ASKED = 100


class Request(NamedTuple):
    """What a service asks for, and whom the wallet is connected to: the link's host, and not what the request says."""

    service: str
    nonce: str
    policy: Policy
    values: Dict[str, str]

    def asks_itself(self) -> List[str]:
        """The fields that the holder would tell as they are."""
        return [show.field for show in self.policy.told(self.values)]


def read_request(service: str, body: Any) -> Request:
    """Refuses what no service has a right to ask for, whatever the wallet has."""
    try:
        if body["service"] != service:
            raise Refused("the request is another service's")
        if not re.fullmatch(common.NONCE, body["nonce"]):
            raise Refused("the request has no nonce of 16 bytes")
        request = Request(service, body["nonce"], Policy(body["policy"]), dict(body["values"]))
        # A name or value of several words could say more lines.
        if not all(re.fullmatch(common.WORD, word) for pair in request.values.items() for word in pair):
            raise Refused("a value is no word")
        return request
    except common.MALFORMED:
        raise Refused("the request has not its form") from None


class Wallet:
    def __init__(self, folder: str) -> None:
        self.folder = folder
        with open(os.path.join(folder, "secret"), "rb") as file:
            self.secret = file.read()

    def path(self, name: str) -> str:
        return os.path.join(self.folder, name)

    def take(self, given: Any, root: Any = None) -> int:
        """Keeps records that are the holder's. Answers how many they are. What was shown of them stays so."""
        try:
            policy = Policy(given["policy"])
            for entry in given["records"]:
                self.check(policy, entry, bytes.fromhex(root["root"]) if root else None)
        except common.MALFORMED:
            raise Refused("what was given has not its form") from None
        with common.alone(self.folder):
            common.write_json(self.path("given.json"), given)
        return len(given["records"])

    def check(self, policy: Policy, entry: Any, root: Optional[bytes]) -> None:
        record = bytes.fromhex(entry["record"])
        for name, field in policy.fields.items():
            if field.kind == "sealed" and record[field.place : field.place + 32] != common.seal_of(self.secret):
                raise Refused(f"{name} is the seal of another wallet")
        # A root that the issuer made for this wallet alone would hide it from nobody.
        if policy.depth and root is None:
            raise Refused("name the root that the issuer has published, too")
        if policy.depth and tree.root_over(common.digest(record), *place_of(entry)) != root:
            raise Refused("the path does not lead to the root that the issuer has published")
        if not policy.depth:
            bytes.fromhex(entry["signature"])

    def given(self, policy: Policy) -> Any:
        """What the issuer gave, where it is what a policy speaks of. A service says what is shown, and never where a
        field stands: else it could ask for a secret by another name. Nor that it gets the digest under a root."""
        given = common.read_json(self.path("given.json"))
        if Policy(given["policy"]).layout != policy.layout:
            raise Refused("the request is for records of another layout")
        return given

    def next(self, policy: Policy) -> Any:
        """The entry that would be shown. Under a root it is always the same. Else each is for once, since a digest is
        known again."""
        shown = set() if policy.depth else set(common.words_in(self.path("shown")))
        for entry in self.given(policy)["records"]:
            if digest_of(entry) not in shown:
                return entry
        raise Refused("no record is left: get new ones")

    def sentences(self, request: Request, entry: Any) -> List[str]:
        """What the service would learn by an entry, with what the holder would tell."""
        policy, record = request.policy, bytes.fromhex(entry["record"])
        told = {show.value: word_in(policy.fields[show.field], record) for show in policy.told(request.values)}
        return policy.sentences(request.values, told)

    def show(self, request: Request, entry: Any) -> Dict[str, Any]:
        """The answer to a request, by the entry to which the holder has agreed."""
        with common.alone(self.folder):
            if entry not in self.given(request.policy)["records"]:
                raise Refused("the wallet took other records meanwhile: go back to the service")
            if not request.policy.depth and digest_of(entry) in common.words_in(self.path("shown")):
                raise Refused("this record was shown meanwhile: go back to the service")
            answer = self.answer(request, entry)
            # Kept before it is sent: a wallet that is cut off loses a record, and shows none twice.
            if not request.policy.depth:
                common.add(self.path("shown"), [digest_of(entry)])
            return answer

    def answer(self, request: Request, entry: Any) -> Dict[str, Any]:
        policy, record = request.policy, bytes.fromhex(entry["record"])
        # By another service's tag this one could try out which of its pseudonyms is the holder's.
        values: Dict[str, Any] = {**request.values, **{name: common.tag_of(request.service) for name in policy.tags()}}
        more: Dict[str, Any] = {"secret": self.secret} if policy.needs_secret() else {}
        if policy.depth:
            more["path"] = place_of(entry)
        session = common.session_of(request.service, request.nonce)
        made = policy.proofs.prove(record, values, session=session, **more)
        told = policy.proofs.told(made.shown)
        return {
            "nonce": request.nonce,
            "digest": told.head.hex(),
            "signature": entry.get("signature", ""),
            "pseudonyms": [pseudonym.hex() for pseudonym in told.pseudonyms],
            "told": {show.value: told.values[show.value] for show in policy.told(request.values)},
            "proof": made.proof.hex(),
        }


def word_in(field: Field, record: bytes) -> str:
    """A field of a record as a word, with bytes that are no UTF-8 as lzk has them."""
    data = record[field.place : field.place + field.size]
    return str(int.from_bytes(data, "big")) if field.kind == "date" else data.decode("utf-8", "surrogateescape")


def digest_of(entry: Any) -> str:
    return common.digest(bytes.fromhex(entry["record"])).hex()


def place_of(entry: Any) -> Tuple[int, List[bytes]]:
    return int(entry["leaf"]), [bytes.fromhex(node) for node in entry["path"]]


# ---- over the loopback


def fetch(link: str) -> Request:
    """What a service asks for. The wallet knows it by the host that it connects to."""
    host, path = pages.parts_of(link)
    status, body = pages.call(host, path if re.fullmatch(f"/ask/{common.NONCE}", path) else "/ask")
    if status != 200:
        raise Refused(f"{host} refuses: {refusal_in(body)}")
    return read_request(host, body)


def send(request: Request, answer: Dict[str, Any]) -> Dict[str, Any]:
    """What the service says of an answer: what it learnt, or that it refuses."""
    _, body = pages.call(request.service, "/answer", answer)
    if not isinstance(body, dict) or "learnt" not in body:
        raise Refused(f"{request.service} refuses: {refusal_in(body)}")
    return body


def refusal_in(body: Any) -> str:
    """Why a service refuses, in its own words: it may be hostile."""
    return common.escaped(str(body.get("refused") if isinstance(body, dict) else None))


# ---- commands


def new(folder: str) -> None:
    common.new_folder(folder)
    common.write(os.path.join(folder, "secret"), secrets.token_bytes(16))
    print(common.seal_of(Wallet(folder).secret).hex())


def take(folder: str, given_file: str, root_file: str = "") -> None:
    count = Wallet(folder).take(common.read_json(given_file), common.read_json(root_file) if root_file else None)
    print("1 record" if count == 1 else f"{count} records")


def agree(request: Request, words: Tuple[str, ...]) -> None:
    """Asks the holder, or takes the words for an answer."""
    if "yes" in words:
        for field in request.asks_itself():
            if f"tell={field}" not in words:
                raise Refused(f"{request.service} asks for {field} itself: add tell={field} to tell it")
        return
    if not sys.stdin.isatty():
        raise Refused("nobody was asked: add yes")
    if input("Show it? [y/N] ").strip().lower() not in ("y", "yes"):
        raise Refused("the holder says no")


def show(folder: str, link: str, *words: str) -> None:
    wallet, request = Wallet(folder), fetch(link)
    entry = wallet.next(request.policy)
    print(f"{request.service} would learn:")
    for sentence in wallet.sentences(request, entry):
        print(f"- {common.escaped(sentence)}")
    agree(request, words)
    send(request, wallet.show(request, entry))
    print("let in")


# ---- the page


class WalletPages(pages.Handler):
    """The wallet in the browser. Only what its holder agrees to on its own page is shown."""

    who, kind = "Your wallet", "wallet"
    wallet: Wallet
    asked: Dict[str, Tuple[Request, Any]]

    def do_GET(self) -> None:
        query = urllib.parse.parse_qs(urllib.parse.urlparse(self.path).query)
        self.reply(lambda: self.consent(query.get("ask", [""])[0]))

    def check_shown(self) -> None:
        """Refuses what a browser fetches to show nobody, as another site's picture: it would make the wallet speak to
        any port, and its holder's own pages too old."""
        if self.headers.get("Sec-Fetch-Dest", "document") != "document":
            raise Refused("this page is to be opened, and not fetched")

    def do_POST(self) -> None:
        self.reply(lambda: self.agreed(urllib.parse.parse_qs(self.body().decode("ascii", "replace"))))

    def consent(self, link: str) -> None:
        """Says what would be learnt, and asks. The token is this page's secret: no other site can press the button."""
        if not link:
            return self.page("Your wallet", "<p>A service's page leads here when it asks for something.</p>")
        self.check_shown()
        request, token = fetch(link), secrets.token_hex(16)
        entry = self.wallet.next(request.policy)
        while len(self.asked) >= MOST_ASKED:
            self.asked.pop(next(iter(self.asked)))
        self.asked[token] = request, entry
        told = pages.plain(" and ".join(request.asks_itself()))
        return self.page(
            f"Show this to {request.service}?",
            pages.listed("It would learn", self.wallet.sentences(request, entry)),
            pages.listed("It would not be told", request.policy.not_told(), "no"),
            f"<p class=warning>It asks for <strong>{told}</strong> itself.</p>" if told else "",
            f'<form method=post action="/show"><input type=hidden name=token value={token}>'
            "<button name=do value=show>Show it</button> "
            "<button name=do value=no class=quiet>Do not show</button></form>",
        )

    def agreed(self, form: Dict[str, List[str]]) -> None:
        asked = self.asked.pop(form.get("token", [""])[0], None)
        if asked is None:
            raise Refused("this page was used before, or is too old: go back to the service")
        request, entry = asked
        if form.get("do") != ["show"]:
            return self.page("Nothing was shown", f"<p>{pages.plain(request.service)} learnt nothing.</p>")
        body = send(request, self.wallet.show(request, entry))
        # Back to the service that got it, and to no other.
        return self.lead(f"http://{request.service}/in/{re.sub('[^0-9a-f]', '', str(body.get('door')))}")


def page(folder: str, port: str = str(pages.WALLET_PORT)) -> None:
    handler = type("Pages", (WalletPages,), {"wallet": Wallet(folder), "asked": {}})
    with pages.serve(handler, int(port)) as server:
        print(f"the wallet is at http://{server.name}/", flush=True)
        server.serve_forever()


def main(words: List[str]) -> int:
    if words[:1] == ["new"] and len(words) == 2:
        return common.ended(new, words[1:], "nothing is made: ")
    if words[:1] == ["take"] and len(words) in (3, 4):
        return common.ended(take, words[1:], "nothing is taken: ")
    if words[:1] == ["show"] and len(words) >= 3:
        return common.ended(show, words[1:], "nothing is shown: ")
    if words[:1] == ["page"] and len(words) in (2, 3):
        return common.ended(page, words[1:], "there is no page: ")
    print(__doc__)
    return 2


if __name__ == "__main__":
    try:
        sys.exit(main(sys.argv[1:]))
    except KeyboardInterrupt:
        sys.exit(0)
