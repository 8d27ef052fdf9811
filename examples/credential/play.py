#!/usr/bin/env python3
"""Plays issuers, wallets and services over the loopback: who is let in, and what is refused.

    play.py [DEPTH]

Prints expected.txt, with another number of records under a root of another DEPTH than 5. Over 5 it needs the library of
the strong profile. What dishonest parties do stands here: wallet.py and service.py know nothing of it.
"""

from __future__ import annotations

import contextlib
import http.client
import io
import os
import re
import sys
import tempfile
import threading
from functools import partial
from typing import Any, Callable, Dict, List, Optional

import common  # first: it finds lzk
import lzk
import issuer
import pages
import service
import wallet
from common import Policy, Refused

HERE = os.path.dirname(os.path.realpath(__file__))
ADULT = {"LATEST": "20081129"}
TODAY = {"TODAY": "20261129"}
PEOPLE = {
    "ann": {"birth": "1999-04-12", "until": "2030-12-31", "country": "NL"},
    "bob": {"birth": "2012-01-01", "until": "2030-12-31", "country": "BE"},
    "eve": {"birth": "1980-07-02", "until": "2026-06-30", "country": "NL"},
}
DEPTH = sys.argv[1] if len(sys.argv) == 2 else "5"
Change = Callable[[Any], Any]
names: Dict[str, str] = {}


def tell(text: str) -> None:
    print(f"--- {text}")


def say(what: str, work: Callable[[], Any]) -> Any:
    """Prints what comes of something, with services by their names and not by their ports."""
    found = None
    try:
        found = work()
        text = found if isinstance(found, str) else "done"
    except (Refused, lzk.Error) as refused:
        text = str(refused)
    for host, name in names.items():
        text = text.replace(host, name)
    print(f"{what}: {text}")
    return found


def quietly(work: Callable[..., None], *words: str) -> str:
    """What a command prints."""
    with contextlib.redirect_stdout(io.StringIO()) as printed:
        work(*words)
    return printed.getvalue().strip().replace("\n", "\n  ")


def policy_of(name: str, *changes: str) -> Policy:
    """A policy of this folder, where pairs of texts say what is put in the place of what."""
    text = common.read_text(os.path.join(HERE, name))
    for old, new in zip(changes[::2], changes[1::2]):
        assert old in text
        text = text.replace(old, new)
    return Policy(text)


def under_a_root(*changes: str) -> Policy:
    return policy_of("under.txt", "under root 5", f"under root {DEPTH}", *changes)


class Running:
    """A service at a port of its own."""

    def __init__(self, name: str, policy: Policy, values: Dict[str, str], port: int = 0, key: str = "issuer") -> None:
        self.server = pages.serve(service.ServicePages, port)
        self.service = service.Service(name, self.server.name, f"{key}/public.pem", policy, values)
        self.server.RequestHandlerClass = service.pages_of(self.service)
        self.link = f"http://{self.server.name}/"
        names[self.server.name] = name
        threading.Thread(target=self.server.serve_forever, daemon=True).start()


def new_wallet(name: str) -> wallet.Wallet:
    quietly(wallet.new, name)
    return wallet.Wallet(name)


def people_of(policy: Policy, wallets: Dict[str, wallet.Wallet], folder: str) -> None:
    """What the issuer knows of each person: the values of fields, and the seal that the wallet drew."""
    os.mkdir(folder)
    for name, kept in wallets.items():
        person, seal = PEOPLE[name], common.seal_of(kept.secret).hex()
        kinds = {field: of.kind for field, of in policy.fields.items() if of.kind != "bytes"}
        known = {field: seal if kind == "sealed" else person[field] for field, kind in kinds.items()}
        common.write_json(f"{folder}/{name}.json", known)


def issue(key: str, policy: Policy, wallets: Dict[str, wallet.Wallet], name: str, *count: str) -> str:
    people_of(policy, wallets, f"{name}-people")
    common.write(f"{name}.txt", policy.text.encode())
    told = quietly(issuer.issue, key, f"{name}.txt", f"{name}-people", f"{name}-given", *count)
    for person, kept in wallets.items():
        kept.take(given(name, person), published(key) if policy.depth else None)
    return told


def given(name: str, person: str) -> Any:
    return common.read_json(f"{name}-given/{person}.json")


def published(key: str) -> Any:
    return common.read_json(f"{key}/root.json")


def show(kept: wallet.Wallet, place: Running, asked: Optional[Change] = None, answered: Optional[Change] = None) -> str:
    """A show over HTTP, where somebody may change the request or the answer on its way."""
    request = wallet.fetch(place.link)
    answer = agreed(kept, asked(request) if asked else request)
    wallet.send(request, answered(answer) if answered else answer)
    return "let in"


def agreed(kept: wallet.Wallet, request: wallet.Request) -> Dict[str, Any]:
    """The answer of a holder who agrees to whatever it is."""
    return kept.show(request, kept.next(request.policy))


def answer_of(kept: wallet.Wallet, place: Running) -> Dict[str, Any]:
    return agreed(kept, wallet.fetch(place.link))


def send(place: Running, answer: Dict[str, Any], **more: Any) -> str:
    """Sends an answer, in a session of another request where the words say so."""
    wallet.send(wallet.fetch(place.link), {**answer, **more})
    return "let in"


def nonce_of(place: Running) -> str:
    return wallet.fetch(place.link).nonce


def anyway(kept: wallet.Wallet, place: Running) -> str:
    """Makes the numbers by values that are true of everybody, puts the service's in their place, and proves."""
    request = wallet.fetch(place.link)
    policy = request.policy
    easiest = {"most": "4294967295", "least": "0"}
    easy = {show.value: easiest[show.way] for show in policy.shows if show.way in easiest}
    entry = kept.given(policy)["records"][0]
    more: Dict[str, Any] = {"secret": kept.secret} if policy.needs_secret() else {}
    if policy.depth:
        more["path"] = wallet.place_of(entry)
    values: Dict[str, Any] = {**easy, **{name: common.tag_of(request.service) for name in policy.tags()}}
    made = policy.proofs.inputs(bytes.fromhex(entry["record"]), values, **more)
    lies = {word: str(int(request.values[name])) for name, word in easy.items()}
    public = "\n".join(lies.get(number, number) for number in made.public.decode().split())
    try:
        lzk.prove(policy.proofs.circuit(), public, made.private, common.session_of(request.service, request.nonce))
    except lzk.Unsatisfied:
        return "no proof is made: the numbers do not satisfy the circuit"
    return "a proof of what is false"


def with_entry(kept: wallet.Wallet, name: str, **more: Any) -> wallet.Wallet:
    """Another wallet with the same secret, whose record has something in the place of what it had."""
    os.mkdir(name)
    common.write(f"{name}/secret", kept.secret)
    given = common.read_json(kept.path("given.json"))
    given["records"][0].update(more)
    common.write_json(f"{name}/given.json", given)
    return wallet.Wallet(name)


def entry_of(kept: wallet.Wallet) -> Dict[str, Any]:
    return dict(common.read_json(kept.path("given.json"))["records"][0])


# ---- a root, and a pseudonym of a sealed secret


def play_root() -> None:
    policy = under_a_root()
    tell("records under a root: wallets draw secrets, the issuer gets their seals")
    wallets = {name: new_wallet(name) for name in PEOPLE}
    say("the issuer", lambda: issue("issuer", policy, wallets, "under"))
    ann, bob, eve = wallets.values()
    for sentence in policy.sentences(ADULT):
        print(f"- {sentence}")
    inn, bar = Running("inn", policy, ADULT), Running("bar", policy, ADULT)
    say("ann, before the inn trusts the root", lambda: show(ann, inn))
    for place in ("inn", "bar"):
        quietly(service.trust, place, "issuer/public.pem", "issuer/root.json")
    say("ann", lambda: show(ann, inn))
    say("ann again, whom the inn knows by the pseudonym", lambda: show(ann, inn))
    say("ann at the bar", lambda: show(ann, bar))
    seen = [common.read_text(f"{place}/seen").split() for place in ("inn", "bar")]
    print(f"her pseudonyms there: {'one' if seen[0] == seen[1] else 'two that differ'}")
    modes = " and ".join(f"{os.stat(path).st_mode & 0o777:o}" for path in ("inn", "inn/seen"))
    print(f"who may read the inn's folder, and what it has seen: {modes}")
    say("bob, who is too young", lambda: show(bob, inn))
    say("bob, who proves it anyway", lambda: anyway(bob, inn))
    say("bob, by a day of his own", lambda: show(bob, inn, asked=lambda it: it._replace(values={"LATEST": "20261129"})))

    tell("somebody else's secret, record or path")
    as_eve = with_secret(eve, "issuer-as-eve", bytes(16))
    say("the issuer, who knows eve's record and path and not her secret", lambda: show(as_eve, inn))
    say("a wallet that is given eve's record", lambda: ann.take(given("under", "eve"), published("issuer")))
    stray = with_entry(eve, "stray", leaf=entry_of(ann)["leaf"], path=entry_of(ann)["path"])
    say("eve by ann's path", lambda: show(stray, inn))
    root = published("issuer")["root"]
    say("the same, where her wallet claims the root", lambda: show(stray, inn, answered=changed(digest=root)))
    another = [common.digest(b"another").hex()]
    say("eve with another pseudonym", lambda: show(eve, inn, answered=changed(pseudonyms=another)))
    say("eve with hers in other digits", lambda: show(eve, inn, answered=in_capitals))

    tell("a root that is not the issuer's, or is another's")
    mallory = {name: new_wallet(f"mallory-{name}") for name in PEOPLE}
    issue("forger", policy, mallory, "forged")
    astray = given("forged", "ann"), published("issuer")
    say("a wallet with a path to another root", lambda: mallory["ann"].take(*astray))
    say("a record of a forger", lambda: show(mallory["ann"], inn))
    say("its root, as the issuer's", lambda: quietly(service.trust, "inn", "issuer/public.pem", "forger/root.json"))
    common.write_json("other.json", {**published("issuer"), "levels": int(DEPTH) + 1})
    say("the issuer's root by another depth", lambda: quietly(service.trust, "inn", "issuer/public.pem", "other.json"))
    quietly(service.trust, "annex", "forger/public.pem", "forger/root.json")
    say("a root that is trusted by another key", lambda: show(mallory["ann"], Running("annex", policy, ADULT)))
    thief = with_entry(mallory["eve"], "thief", leaf=entry_of(eve)["leaf"], path=entry_of(eve)["path"])
    say("a forged record by the path of an issued one", lambda: show(thief, inn, answered=changed(digest=root)))

    play_requests(eve, inn, bar)

    tell("a record that is left out of the next tree")
    say("the issuer", lambda: issue("issuer", policy, {"ann": ann, "bob": bob}, "next"))
    quietly(service.trust, "bar", "issuer/public.pem", "issuer/root.json", "only")
    say("eve by her old path", lambda: show(eve, bar))
    say("ann by her new one, whom the bar still knows", lambda: show(ann, bar))
    gate = Running("gate", policy, ADULT)
    quietly(service.trust, "gate", "issuer/public.pem", "issuer/root.json", "only")
    say("ann where she was not before", lambda: show(ann, gate))


def play_requests(eve: wallet.Wallet, inn: Running, bar: Running) -> None:
    tell("what a wallet does not answer")
    by_digest = under_a_root(f"show under root {DEPTH}", "show digest")
    say("a service that asks for the digest under a root", lambda: show(eve, Running("spy", by_digest, ADULT)))
    other_depth = under_a_root(f"root {DEPTH}", f"root {int(DEPTH) - 1}")
    say("one that asks by another depth", lambda: show(eve, Running("spy", other_depth, ADULT)))
    as_text = under_a_root("country text 2 at 4", "country text 2 at 6")
    say("one that calls two bytes of the seal a country", lambda: show(eve, Running("spy", as_text, ADULT)))
    say("one that gives the tag of another, which is not taken", lambda: show(eve, bar, asked=tagged))
    two_lines = {**inn.service.ask(), "values": {"LATEST": "1\nSERVICE 00"}}
    say("one that gives a value of two lines", lambda: wallet.read_request(inn.server.name, two_lines) and "asked")
    signs = under_a_root("one of NL BE", "one of \x1bc NL")
    say("one whose text would clear the terminal", lambda: "; ".join(told_to(eve, Running("spy", signs, ADULT))[2:3]))
    say("one that refuses in such signs", lambda: wallet.refusal_in({"refused": "no \x1bc\u202e"}))
    say("a false service that hands on a request", lambda: wallet.read_request("evil", inn.service.ask()) and "asked")
    say("and under its own name", lambda: handed_on(eve, inn))


def changed(**more: Any) -> Change:
    """An answer with something in the place of what it had."""
    return lambda answer: {**answer, **more}


def in_capitals(answer: Any) -> Any:
    return {**answer, "pseudonyms": [word.upper() for word in answer["pseudonyms"]]}


def with_secret(kept: wallet.Wallet, name: str, secret: bytes) -> wallet.Wallet:
    other = with_entry(kept, name)
    common.write(f"{name}/secret", secret)
    return wallet.Wallet(other.folder)


def tagged(request: wallet.Request) -> wallet.Request:
    """The same request with a tag, which the wallet makes itself."""
    return request._replace(values={**request.values, "SERVICE": "00112233445566778899aabbccddeeff"})


def told_to(kept: wallet.Wallet, place: Running) -> List[str]:
    """What a holder is told that a service would learn."""
    request = wallet.fetch(place.link)
    return kept.sentences(request, kept.next(request.policy))


def handed_on(kept: wallet.Wallet, place: Running) -> str:
    """A service in the middle asks in its own name with another's nonce, and hands the answer on."""
    request = wallet.fetch(place.link)
    answer = agreed(kept, request._replace(service="evil"))
    wallet.send(request, answer)
    return "let in"


# ---- digests


def play_digest() -> None:
    plain, named = policy_of("plain.txt"), policy_of("policy.txt")
    values = {**ADULT, **TODAY}
    tell("records by their digests: each is signed, and shown once")
    wallets = {name: new_wallet(f"{name}2") for name in PEOPLE}
    ann, bob, eve = wallets.values()
    say("the issuer, by the key for records under a root", lambda: issue("issuer", plain, {}, "wrong"))
    say("the issuer by another key", lambda: issue("issuer2", plain, wallets, "plain", "12"))
    for sentence in plain.sentences(values):
        print(f"- {sentence}")
    shop = Running("shop", plain, values, key="issuer2")
    answer = answer_of(ann, shop)
    say("ann", lambda: send(shop, answer))
    say("the same answer again", lambda: send(shop, answer))
    say("the same answer in another session", lambda: send(shop, answer, nonce=nonce_of(shop)))
    os.rename("shop/seen", "shop/lost")
    say("the same, where the service lost what it had seen", lambda: send(shop, answer, nonce=nonce_of(shop)))
    os.rename("shop/lost", "shop/seen")
    again = with_entry(ann, "again")
    say("a record that was shown, proved once more", lambda: show(rewound(again), shop))
    ann.take(given("plain", "ann"))
    say("ann, who took the same records again, by another one", lambda: show(ann, shop))
    say("ann on two pages that speak of one record", lambda: on_two_pages(ann, shop))
    say("bob, who is too young", lambda: show(bob, shop))
    say("bob, who proves it anyway", lambda: anyway(bob, shop))
    say("eve, whose record has expired", lambda: show(eve, shop))
    say("eve, who proves it anyway", lambda: anyway(eve, shop))
    mallory = {name: new_wallet(f"mallory2-{name}") for name in PEOPLE}
    issue("forger2", plain, mallory, "forged2")
    say("a record of a forger", lambda: show(mallory["ann"], shop))
    signed = changed(digest=answer["digest"], signature=answer["signature"])
    say("a forger who sends another's digest", lambda: show(rewound(mallory["ann"]), shop, answered=signed))

    tell("with a pseudonym of bytes, which the issuer knows: once, by another record again, and at another service")
    club, bar = Running("club", named, values, key="issuer2"), Running("pub", named, values, key="issuer2")
    say("ann", lambda: show(ann, club))
    say("ann by another record", lambda: show(ann, club))
    say("ann elsewhere", lambda: show(ann, bar))
    play_told(ann, values)


def play_told(ann: wallet.Wallet, values: Dict[str, str]) -> None:
    tell("a field itself, which the holder agrees to tell")
    told = policy_of("plain.txt", "country one of NL BE", "country as COUNTRY")
    post = Running("post", told, values, key="issuer2")
    say("ann, who was not asked", lambda: quietly(wallet.show, ann.folder, post.link))
    say("ann, who agrees to the rest", lambda: quietly(wallet.show, ann.folder, post.link, "yes"))
    say("ann, who agrees", lambda: quietly(wallet.show, ann.folder, post.link, "yes", "tell=country"))
    say("one that tells another country", lambda: show(ann, post, answered=changed(told={"COUNTRY": "BE"})))
    say("one that tells nothing", lambda: show(ann, post, answered=changed(told={})))
    abroad = Running("abroad", told, {**values, "COUNTRY": "BE"}, key="issuer2")
    say("a service that asks whether it is BE", lambda: show(ann, abroad))
    moved = signed_by("issuer2", ann, "moved", b"BE")
    say("a wallet whose record of BE was shown", lambda: quietly(wallet.show, moved.folder, post.link, *AGREED))
    say("the same, by its record of NL", lambda: quietly(wallet.show, moved.folder, post.link, *AGREED))
    odd = signed_by("issuer2", ann, "foreign", b"\xff\x80")
    say("a country that is no UTF-8", lambda: quietly(wallet.show, odd.folder, post.link, *AGREED))
    say("one that tells half a sign", lambda: show(ann, post, answered=changed(told={"COUNTRY": "\ud800"})))


AGREED = ("yes", "tell=country")


def rewound(kept: wallet.Wallet) -> wallet.Wallet:
    """A wallet that has forgotten what it has shown."""
    with contextlib.suppress(FileNotFoundError):
        os.remove(kept.path("shown"))
    return kept


def on_two_pages(kept: wallet.Wallet, place: Running) -> str:
    """Both ask the holder before one is agreed to."""
    first, second = wallet.fetch(place.link), wallet.fetch(place.link)
    entry, same = kept.next(first.policy), kept.next(second.policy)
    wallet.send(first, kept.show(first, entry))
    wallet.send(second, kept.show(second, same))
    return "let in"


def signed_by(key: str, kept: wallet.Wallet, name: str, country: bytes) -> wallet.Wallet:
    """Another wallet with the same secret, whose first record is of another country, and the others as they were."""
    given = common.read_json(kept.path("given.json"))
    field = Policy(given["policy"]).fields["country"]
    record = bytearray.fromhex(entry_of(kept)["record"])
    record[field.place : field.place + field.size] = country
    signature = issuer.sign(key, common.SIGNED_RECORD + common.digest(record))
    return with_entry(kept, name, record=record.hex(), signature=signature.hex())


# ---- pages, and what has not its form


def call(place: str, method: str, path: str, body: str = "", **headers: str) -> str:
    """Status and heading of a page, with what is said under it."""
    connection = http.client.HTTPConnection(place, timeout=60)
    connection.request(method, path, body, headers)
    answer = connection.getresponse()
    text = answer.read().decode()
    cookie, location = answer.getheader("Set-Cookie"), answer.getheader("Location")
    connection.close()
    last["cookie"], last["text"] = (cookie or "").split(";")[0] or last["cookie"], text
    if location:
        last["location"] = location
        return f"{answer.status} to the service"
    heading = re.search("<h1>(.*?)</h1>(?:<p>(.*?)</p>)?", text)
    said = ": ".join(part for part in heading.groups() if part) if heading else text.strip()
    return f"{answer.status} {said}"


def fresh(door: Running, brought: str) -> str:
    """Whether a page that asks takes up the word that a browser brings."""
    call(door.server.name, "GET", "/", Cookie=f"{brought}; visit={'0' * 32}")
    name, word = last["cookie"].split("=")
    return "another is drawn" if name != brought.split("=")[0] and word != "0" * 32 else "its word is taken"


last: Dict[str, str] = {"cookie": "", "text": "", "location": ""}


def play_pages() -> None:
    tell("pages")
    policy = under_a_root()
    wallets = {name: new_wallet(f"{name}3") for name in PEOPLE}
    issue("issuer", policy, wallets, "under3")
    door = Running("door", policy, ADULT)
    quietly(service.trust, "door", "issuer/public.pem", "issuer/root.json")
    handler = type("Pages", (wallet.WalletPages,), {"wallet": wallets["ann"], "asked": {}})
    mine = pages.serve(handler, 0)
    threading.Thread(target=mine.serve_forever, daemon=True).start()
    say("the service", lambda: call(door.server.name, "GET", "/"))
    cookie, ask = last["cookie"], re.search(r'href="http://127.0.0.1:\d+(/\?ask=[^"]*)"', last["text"])
    path = ask[1] if ask else ""
    say("another site's picture of the wallet", lambda: call(mine.name, "GET", path, **{"Sec-Fetch-Dest": "image"}))
    say("the wallet", lambda: call(mine.name, "GET", path))
    token = re.search("name=token value=([0-9a-f]*)", last["text"])
    form = f"token={token[1] if token else ''}&do="
    say("another site that presses the button", lambda: call(mine.name, "POST", "/show", "token=00&do=show"))
    say("another host's name", lambda: call(mine.name, "GET", path, Host="evil.example"))
    say("ann shows it", lambda: call(mine.name, "POST", "/show", form + "show"))
    enter = last["location"].replace(door.link, "/")
    planted = f"{cookie.split('=')[0]}={'0' * 32}"
    say("a browser that brings a word to the service", lambda: fresh(door, planted))
    say("another browser", lambda: call(door.server.name, "GET", enter))
    say("her browser with a word that another port gave", lambda: call(door.server.name, "GET", enter, Cookie=planted))
    say("ann's browser", lambda: call(door.server.name, "GET", enter, Cookie=f"{planted}; {cookie}"))
    print("\n".join(f"- {item}" for item in re.findall("<li>(.*?)</li>", last["text"])))
    say("the button once more", lambda: call(mine.name, "POST", "/show", form + "show"))
    say("a link that leads elsewhere", lambda: call(mine.name, "GET", "/?ask=http://example.com/"))
    say("a link by another name of a port", lambda: call(mine.name, "GET", "/?ask=http://127.0.0.1:08417/"))
    say("a text on a page that would turn letters around", lambda: pages.plain("NL\u202e"))
    say("a page that is not there", lambda: call(door.server.name, "GET", "/none"))
    play_forms(policy, door)


def play_forms(policy: Policy, door: Running) -> None:
    tell("what has not its form")
    say("an answer that is no JSON", lambda: call(door.server.name, "POST", "/answer", "{"))
    say("one of another form", lambda: call(door.server.name, "POST", "/answer", "[1]"))
    empty = {"digest": published("issuer")["root"], "signature": "", "pseudonyms": ["00" * 32], "told": {}}
    say("one with no proof", lambda: send(door, empty, nonce=nonce_of(door)))
    say("one with an empty proof", lambda: send(door, empty, nonce=nonce_of(door), proof=""))
    say("one with no pseudonym", lambda: send(door, empty, nonce=nonce_of(door), proof="", pseudonyms=[]))
    say("a session that is not open", lambda: call(door.server.name, "GET", "/ask/" + "0" * 32))
    say("a request of another form", lambda: wallet.read_request("inn", []) and "asked")
    say("a day with signs", lambda: service.checked(policy, {"LATEST": "2008-11-29"}) and "taken")
    say("no day", lambda: service.checked(policy, {}) and "taken")
    say("a value that the policy has not", lambda: service.checked(policy, {**ADULT, "TODAY": "1"}) and "taken")
    say("a policy that is none", lambda: under_a_root("at most", "<=") and "taken")
    odd = {"birth": "1999-13-12", "country": "NL", "owner": "00" * 32}
    for what, person in (("few", {"birth": "1999-04-12"}), ("odd", odd)):
        os.mkdir(what)
        common.write_json(f"{what}/ann.json", person)
        say(f"a person of {what} words", partial(quietly, issuer.issue, "issuer", "under.txt", what, "new"))
    say("an issuer's key over another", lambda: quietly(issuer.make_key, "issuer"))


def main() -> int:
    with tempfile.TemporaryDirectory() as folder:
        os.chdir(folder)
        sys.stdin = open(os.devnull, encoding="utf-8")  # noqa: SIM115
        os.umask(0o022)
        for key in ("issuer", "forger", "issuer2", "forger2"):
            quietly(issuer.make_key, key)
        play_root()
        play_digest()
        play_pages()
        os.chdir(HERE)
    return 0


if __name__ == "__main__":
    sys.exit(main())
