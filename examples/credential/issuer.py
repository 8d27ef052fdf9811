#!/usr/bin/env python3
"""The issuer: an Ed25519 key, and records for people, each with a salt of its own.

    issuer.py key FOLDER
    issuer.py issue FOLDER POLICY PEOPLE GIVEN [COUNT]

PEOPLE is a folder with a file NAME.json for each person. It has a value for each field of POLICY but those of bytes: a
date as "2030-12-31", a text, and for a sealed field the seal that the person's wallet drew. GIVEN becomes a folder with
what each wallet gets. Where POLICY shows a root, each person gets one record and its path, and FOLDER/root.json is the
signed root, for everybody. Where it shows a digest, each gets COUNT signed records, each to be shown once.
"""

from __future__ import annotations

import datetime
import os
import re
import secrets
import sys
from typing import Any, Dict, List

import common
import tree
from common import Field, Policy, Refused

MOST_RECORDS = 1000


def make_key(folder: str) -> None:
    common.new_folder(folder)
    key = os.path.join(folder, "key.pem")
    if common.openssl("genpkey", "-algorithm", "ed25519", "-out", key) is None:
        raise Refused("this openssl makes no Ed25519 keys")
    common.openssl("pkey", "-in", key, "-pubout", "-out", os.path.join(folder, "public.pem"))
    print("a key")


def begin(folder: str, policy: Policy, given_folder: str) -> None:
    """Makes the folder for what is given. From then on the key is for this layout alone, whose digest stands beside it:
    a signature says nothing of the layout."""
    if not os.path.exists(os.path.join(folder, "key.pem")):
        raise Refused(f"{folder} has no key: issuer.py key FOLDER makes one")
    kept, layout = os.path.join(folder, "layout"), "\n".join(" ".join(words) for words in policy.layout)
    digest = common.digest(layout.encode()).hex()
    with common.alone(folder):
        if common.words_in(kept) not in ([], [digest]):
            raise Refused(f"the key of {folder} is for records of another layout: make another key")
        common.new_folder(given_folder)
        common.write(kept, f"{digest}\n".encode())


def sign(folder: str, message: bytes) -> bytes:
    signature = common.openssl("pkeyutl", "-sign", "-rawin", "-inkey", os.path.join(folder, "key.pem"), message=message)
    if not signature:
        raise Refused(f"{folder} has no Ed25519 key: issuer.py key FOLDER makes one")
    return signature


def bytes_of(name: str, field: Field, value: Any) -> bytes:
    """The bytes of a field: a date as the number YYYYMMDD with the first byte worth most, a text as it is, a seal."""
    try:
        if field.kind == "date":
            year, month, day = map(int, re.findall("^([0-9]{4})-?([0-9]{2})-?([0-9]{2})$", str(value))[0])
            datetime.date(year, month, day)
            return (year * 10_000 + month * 100 + day).to_bytes(4, "big")
        found: bytes = bytes.fromhex(value) if field.kind == "sealed" else value.encode()
    except common.MALFORMED:
        wanted = {"date": "a day, as 2030-12-31", "sealed": "a seal of 64 digits, as wallet.py new prints it"}
        raise Refused(f"{name} is to be {wanted.get(field.kind, 'a text')}, and not {value!r}") from None
    if len(found) != field.size:
        raise Refused(f"{name} has {len(found)} bytes, and the policy says {field.size}")
    return found


def read_person(policy: Policy, path: str) -> Dict[str, bytes]:
    """The bytes of each field of a person but those of bytes, which are drawn."""
    try:
        person = dict(common.read_json(path))
    except common.MALFORMED as error:
        raise Refused(f"{path} is no list of names and values in JSON: {error}") from None
    wanted = {name: field for name, field in policy.fields.items() if field.kind != "bytes"}
    for name in sorted(wanted.keys() ^ person.keys()):
        what = "has" if name in person else "lacks"
        raise Refused(f"{path} {what} {name}, and the policy's fields are {', '.join(wanted)}")
    return {name: bytes_of(name, field, person[name]) for name, field in wanted.items()}


def read_people(policy: Policy, folder: str) -> Dict[str, Dict[str, bytes]]:
    files = sorted(name for name in os.listdir(folder) if name.endswith(".json"))
    people = {name: read_person(policy, os.path.join(folder, name)) for name in files}
    # The issuer knows these secrets, and so their pseudonyms. It knows no secret that is sealed.
    drawn = {name: field.size for name, field in policy.fields.items() if field.kind == "bytes"}
    for person in people.values():
        person.update({name: secrets.token_bytes(size) for name, size in drawn.items()})
    return people


def record_of(policy: Policy, person: Dict[str, bytes]) -> bytes:
    """A record with these fields. All else is a salt, fresh for each record."""
    record = bytearray(secrets.token_bytes(policy.size))
    for name, field in policy.fields.items():
        record[field.place : field.place + field.size] = person[name]
    return bytes(record)


def under_a_root(folder: str, policy: Policy, people: Dict[str, Dict[str, bytes]]) -> Dict[str, List[Any]]:
    """One record for each person at a leaf that is drawn. Nobody can tell the nodes where no record is from others."""
    if len(people) > 2**policy.depth:
        raise Refused(f"{len(people)} people, and {2**policy.depth} leaves")
    leaves = secrets.SystemRandom().sample(range(2**policy.depth), len(people))
    records = {name: record_of(policy, person) for name, person in people.items()}
    rows = tree.rows_of({leaf: common.digest(record) for leaf, record in zip(leaves, records.values())}, policy.depth)
    root = rows[-1][0]
    signature = sign(folder, common.signed_root(policy.depth, root))
    published = {"root": root.hex(), "levels": policy.depth, "signature": signature.hex()}
    common.write_json(os.path.join(folder, "root.json"), published)
    return {
        name: [{"record": record.hex(), "leaf": leaf, "path": [node.hex() for node in tree.path_of(rows, leaf)]}]
        for leaf, (name, record) in zip(leaves, records.items())
    }


def by_digest(folder: str, policy: Policy, person: Dict[str, bytes], count: int) -> List[Any]:
    records = [record_of(policy, person) for _ in range(count)]
    signatures = [sign(folder, common.SIGNED_RECORD + common.digest(record)) for record in records]
    return [{"record": one.hex(), "signature": other.hex()} for one, other in zip(records, signatures)]


def issue(folder: str, policy_file: str, people_folder: str, given_folder: str, count: str = "1") -> None:
    policy = Policy(common.read_text(policy_file))
    if not re.fullmatch("[0-9]{1,4}", count) or not 1 <= int(count) <= MOST_RECORDS:
        raise Refused(f"{count} is no number of records from 1 to {MOST_RECORDS}")
    if policy.depth and count != "1":
        raise Refused("under a root each person has one record, which may be shown often")
    people = read_people(policy, people_folder)
    begin(folder, policy, given_folder)
    if policy.depth:
        given = under_a_root(folder, policy, people)
        told = f"a root over {2**policy.depth:,} leaves, {len(people)} of them records"
    else:
        given = {name: by_digest(folder, policy, person, int(count)) for name, person in people.items()}
        told = f"{len(people)} people, {count} records each"
    for name, records in given.items():
        common.write_json(os.path.join(given_folder, name), {"policy": policy.text, "records": records})
    print(told)


def main(words: List[str]) -> int:
    if words[:1] == ["key"] and len(words) == 2:
        return common.ended(make_key, words[1:], "nothing is made: ")
    if words[:1] == ["issue"] and len(words) in (5, 6):
        return common.ended(issue, words[1:], "nothing is made: ")
    print(__doc__)
    return 2


if __name__ == "__main__":
    sys.exit(main(sys.argv[1:]))
