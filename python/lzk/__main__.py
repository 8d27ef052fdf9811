"""The commands of `zk` in this process:  python3 -m lzk COMMAND NAME.. [KEY=VALUE]

  eval CIRCUIT PUBLIC PRIVATE
      prints whether the numbers of two files satisfy a circuit, and otherwise the first check that is not 0
  compile SOURCE CIRCUIT [version=N]
      writes the circuit of a source; version=2 is smaller where asserts have many depths
  upgrade OLD NEW
      writes a circuit's file of version 2
  show CIRCUIT
      prints a circuit's field, id and counts
  prove CIRCUIT PUBLIC PRIVATE PROOF [seed=HEX] [session=HEX] [workers=N]
      writes a proof, or prints the first check that is not 0; without a seed, by 32 bytes of the system's random numbers
  verify CIRCUIT PUBLIC PROOF [session=HEX]
      prints whether a proof is accepted, or the first check that it fails
  batch LIST [workers=N]
      prints that for each proof of a list, by N threads; a line is CIRCUIT PUBLIC PROOF [session=HEX]

  demo N [seed=HEX] [workers=N]
      proves and verifies that a public bit is the exclusive or of N private ones, 1 to 16,384
  shacircuit N CIRCUIT
      writes the circuit of SHA-256 for messages of N bytes, 0 to 55
  sha256 CIRCUIT PROOF message=HEX [seed=HEX] [session=HEX] [workers=N]
      writes a proof of knowing a message with this digest

A NAME is the path of a file. Texts and statuses are those of `zk`, but for lines that the library has no numbers for:
of each layer, of each check, of terms. A seed among the words can be seen by other programs: leave it out. Proofs are
made in one thread for every N.
"""

from __future__ import annotations

import io
import os
import re
import secrets
import stat
import sys
from concurrent.futures import ThreadPoolExecutor
from typing import Callable, Dict, List, Optional, Tuple

import lzk

from . import _statements

COMMANDS: Dict[str, Tuple[int, Tuple[str, ...]]] = {
    "eval": (3, ()), "compile": (2, ("version",)), "show": (1, ()), "prove": (4, ("seed", "session", "workers")), "verify": (3, ("session",)),
    "batch": (1, ("workers",)), "upgrade": (2, ()), "demo": (1, ("seed", "workers")), "shacircuit": (2, ()),
    "sha256": (2, ("message", "seed", "session", "workers")),
}  # fmt: skip
VALUES = {
    "version": r"[12]", "message": r"(?:[0-9a-fA-F]{2}){0,55}", "seed": r"[0-9a-fA-F]{64}", "session": r"(?:[0-9a-fA-F]{2}){0,64}", "workers": r"(?=.{1,9}$)0*([1-9]|[1-5][0-9]|6[0-4])",
}  # fmt: skip
MOST_TEXT, MOST_CIRCUIT, MOST_PROOF = 4_194_304, 67_108_864, 2_097_152
MOST_LIST, MOST_OF_A_LIST, MOST_JOBS = 65_536, 134_217_728, 256
LIMITS = {"Layers": 512, "LayerWires": 131_072, "Terms": 2_097_152}


class Ended(Exception):
    """A run ends before its command is done: a line, and a status."""

    def __init__(self, line: str, status: int) -> None:
        super().__init__(line)
        self.line, self.status = line, status


class Files:
    """Reads files whole, each with a limit of its own and, where there is one, a limit of all together."""

    def __init__(self, most: Optional[int] = None) -> None:
        self.left = most

    def read(self, name: str, most: int) -> bytes:
        try:
            with open(name, "rb") as file:
                data = file.read(most + 1)
        except FileNotFoundError:
            raise Ended(f"refused: {name} is missing", 3) from None
        except (OSError, ValueError):
            raise Ended(f"fault: reading {name}", 4) from None
        if len(data) > most:
            raise Ended(f"refused: {name} is larger than {most} bytes", 3)
        if self.left is not None:
            self.left -= len(data)
            if self.left < 0:
                raise Ended(f"refused: {name} is larger than {MOST_OF_A_LIST} bytes", 3)
        return data

    def circuit(self, name: str) -> bytes:
        data = self.read(name, MOST_CIRCUIT)
        refusing(name, lambda: lzk.circuit_info(data))
        return data

    def publics(self, name: str, circuit: bytes) -> bytes:
        data = self.read(name, MOST_TEXT)
        refusing(name, lambda: lzk.explain(circuit, data, proof=b""))
        return data


def refusing(name: str, call: Callable[[], object]) -> None:
    """Makes a call on what a file holds, and ends the run where it is refused."""
    try:
        call()
    except lzk.NoCircuit as error:
        raise Ended(f"refused: {name} at byte {error.offset}: {error.rule}", 3) from None
    except (lzk.NoNumbers, lzk.NoSource) as error:
        raise Ended(f"refused: {name} at line {error.line}: {error.rule}", 3) from None
    except lzk.OverLimit as error:
        raise Ended(f"refused: {name}: {error.limit} {error.count} over {LIMITS[error.limit]}", 3) from None


def is_put_in_place(name: str) -> bool:
    """Whether a name, or a link on its way, leads to what is no file: a device, a pipe, or one of the process's own files."""
    for _ in range(40):
        if name.startswith(("/dev/", "/proc/")):
            return True
        if not os.path.islink(name):
            break
        name = os.path.join(os.path.dirname(name), os.readlink(name))
    return os.path.exists(name) and not os.path.isfile(name)


def put(name: str, data: bytes) -> None:
    """Writes a file in one piece: beside its place first, with the permission bits that the old one had, or as the umask says."""
    try:
        if is_put_in_place(name):
            with open(name, "wb") as file:
                file.write(data)
            return
        mode = stat.S_IMODE(os.stat(name).st_mode) if os.path.exists(name) else None
        place = os.path.realpath(name)
        new = f"{place}.{secrets.token_hex(8)}.part"
        try:
            # As narrow as it can be until it has the old one's bits.
            with os.fdopen(os.open(new, os.O_WRONLY | os.O_CREAT | os.O_EXCL, 0o666 if mode is None else 0o600), "wb") as file:
                file.write(data)
            if mode is not None:
                os.chmod(new, mode & 0o777)
            os.replace(new, place)
        except BaseException:
            if os.path.lexists(new):
                os.unlink(new)
            raise
    except (OSError, ValueError):
        raise Ended(f"fault: writing {name}", 5) from None


def unsatisfied(found: lzk.Unsatisfied) -> str:
    return f"unsatisfied at output {found.check} = {found.value}"


def compile_(names: List[str], keys: Dict[str, str]) -> Tuple[List[str], int]:
    source, made = Files().read(names[0], MOST_TEXT), []
    refusing(names[0], lambda: made.append(lzk.compile(source, int(keys.get("version", "1")))))
    put(names[1], made[0])
    return [made_line(names[1], made[0])], 0


def made_line(name: str, circuit: bytes) -> str:
    return f"compiled {name}: layers {lzk.circuit_info(circuit).layers}, {len(circuit)} bytes"


def show(names: List[str], keys: Dict[str, str]) -> Tuple[List[str], int]:
    info = lzk.circuit_info(Files().circuit(names[0]))
    lines = [f"field {info.field.name.lower()}"]
    lines += ["version 2"] if info.version == 2 else []
    return [*lines, f"id {info.id.hex()}", f"public {info.publics}", f"private {info.privates}", f"layers {info.layers}"], 0


def read_inputs(names: List[str]) -> Tuple[bytes, bytes, bytes]:
    """A circuit and two texts of numbers; what is wrong with private ones is said by the call that takes them."""
    files = Files()
    circuit = files.circuit(names[0])
    return circuit, files.publics(names[1], circuit), files.read(names[2], MOST_TEXT)


def eval_(names: List[str], keys: Dict[str, str]) -> Tuple[List[str], int]:
    given = read_inputs(names)
    try:
        refusing(names[2], lambda: lzk.evaluate(*given))
    except lzk.Unsatisfied as found:
        return [f"output {found.check} = {found.value}", f"unsatisfied at output {found.check}"], 1
    return ["satisfied"], 0


def seed_of(keys: Dict[str, str]) -> Optional[bytes]:
    return bytes.fromhex(keys["seed"]) if "seed" in keys else None


def prove(names: List[str], keys: Dict[str, str]) -> Tuple[List[str], int]:
    given, made = read_inputs(names), []
    try:
        refusing(names[2], lambda: made.append(lzk.prove(*given, bytes.fromhex(keys.get("session", "")), seed_of(keys))))
    except lzk.Unsatisfied as found:
        return [unsatisfied(found)], 1
    put(names[3], made[0])
    return [f"proved {names[3]}: {len(made[0])} bytes"], 0


def upgrade(names: List[str], keys: Dict[str, str]) -> Tuple[List[str], int]:
    made = lzk.upgrade(Files().circuit(names[0]))
    put(names[1], made)
    return [f"upgraded {names[1]}: {len(made)} bytes"], 0


def demo(names: List[str], keys: Dict[str, str]) -> Tuple[List[str], int]:
    count = int(names[0])
    circuit = lzk.compile(_statements.parity_source(count))
    public, private = _statements.parity_inputs(count)
    proof = lzk.prove(circuit, public, private, seed=seed_of(keys))
    verdict = lzk.explain(circuit, public, proof=proof)
    return [f"demo {count}: layers {lzk.circuit_info(circuit).layers}, proof {len(proof)} bytes, {verdict}"], int(not verdict)


def shacircuit(names: List[str], keys: Dict[str, str]) -> Tuple[List[str], int]:
    made = lzk.sha_circuit(int(names[0]))
    put(names[1], made)
    return [made_line(names[1], made)], 0


def sha256(names: List[str], keys: Dict[str, str]) -> Tuple[List[str], int]:
    circuit, message = Files().circuit(names[0]), bytes.fromhex(keys["message"])
    info, (public, private) = lzk.circuit_info(circuit), _statements.sha_inputs(message)
    if info.field == lzk.Field.GF2_128 or (info.publics, info.privates) != (len(public), len(private)):
        raise Ended(f"refused: {names[0]} is not for {len(message)} bytes", 3)
    try:
        made = lzk.prove(circuit, public, private, bytes.fromhex(keys.get("session", "")), seed_of(keys))
    except lzk.Unsatisfied as found:
        return [unsatisfied(found)], 1
    put(names[1], made)
    return [f"proved {names[1]}: {len(made)} bytes, digest {b''.join(word.to_bytes(4, 'big') for word in public).hex()}"], 0


def read_job(files: Files, names: List[str], session: str) -> Tuple[bytes, bytes, bytes, bytes]:
    circuit = files.circuit(names[0])
    return circuit, files.publics(names[1], circuit), files.read(names[2], MOST_PROOF), bytes.fromhex(session)


def judged(job: Tuple[bytes, bytes, bytes, bytes]) -> lzk.Verdict:
    circuit, public, proof, session = job
    return lzk.explain(circuit, public, session=session, proof=proof)


def verify(names: List[str], keys: Dict[str, str]) -> Tuple[List[str], int]:
    verdict = judged(read_job(Files(), names, keys.get("session", "")))
    return [str(verdict)], int(not verdict)


def read_list(name: str) -> List[Tuple[List[str], str]]:
    """The jobs of a list: three names, and the digits of a session."""
    jobs: List[Tuple[List[str], str]] = []
    for number, line in enumerate(Files().read(name, MOST_LIST).split(b"\n"), 1):
        if not line.strip(b" \t\r"):
            continue
        if len(jobs) == MOST_JOBS:
            raise Ended(f"refused: {name} at line {number}: Limit", 3)
        try:
            words = [word for word in re.split("[ \t\r]+", line.decode()) if word]
        except UnicodeDecodeError:
            words = []
        session = words[3] if len(words) == 4 else "session="
        if len(words) not in (3, 4) or not re.fullmatch("session=" + VALUES["session"], session):
            raise Ended(f"refused: {name} at line {number}: Syntax", 3)
        jobs.append((words[:3], session[8:]))
    return jobs


def batch(names: List[str], keys: Dict[str, str]) -> Tuple[List[str], int]:
    files = Files(MOST_OF_A_LIST)
    jobs = [read_job(files, *job) for job in read_list(names[0])]
    with ThreadPoolExecutor(int(keys.get("workers", "1"))) as pool:
        verdicts = list(pool.map(judged, jobs))
    accepted = sum(map(bool, verdicts))
    lines = [f"{number}: {verdict}" for number, verdict in enumerate(verdicts, 1)]
    return [*lines, f"batch: {accepted} accepted, {len(jobs) - accepted} rejected"], int(accepted < len(jobs))


RUNS = {
    "eval": eval_, "compile": compile_, "upgrade": upgrade, "show": show, "prove": prove, "verify": verify, "batch": batch, "demo": demo,
    "shacircuit": shacircuit, "sha256": sha256,
}  # fmt: skip
# Commands whose first name is a number, with the least and the most.
COUNTS = {"demo": (1, _statements.MOST_BITS), "shacircuit": (0, _statements.MOST_MESSAGE)}


def parsed(words: List[str]) -> Optional[Tuple[List[str], Dict[str, str]]]:
    """A command's names and keys, where the words are one."""
    count, known = COMMANDS.get(words[0], (0, ())) if words else (0, ())
    names, rest = words[1 : count + 1], words[count + 1 :]
    keys = dict(word.partition("=")[::2] for word in rest)
    is_well = count and len(names) == count and all(names) and len(keys) == len(rest)
    if is_well and words[0] in COUNTS:
        least, most = COUNTS[words[0]]
        is_well = re.fullmatch("[0-9]{1,9}", names[0]) is not None and least <= int(names[0]) <= most
    if words[:1] == ["sha256"] and "message" not in keys:
        return None
    if not is_well or any(key not in known or "=" not in word or not re.fullmatch(VALUES[key], keys[key]) for key, word in zip(keys, rest)):
        return None
    return names, keys


def run(words: List[str]) -> Tuple[List[str], int]:
    """The lines that a command prints, and its status."""
    found = parsed(words)
    if found is None:
        return ["refused: words"], 2
    try:
        return RUNS[words[0]](*found)
    except Ended as ended:
        return [ended.line], ended.status
    except MemoryError:
        return [], 6


def lines_of(words: List[str]) -> Tuple[List[str], int]:
    """The same, also of the words that ask for help or for the version."""
    if words in ([], ["help"], ["--help"], ["-h"]):
        return (__doc__ or "").strip().split("\n"), 0 if words else 2
    if words in (["version"], ["--version"]):
        return [f"lzk {lzk.__version__}"], 0
    return run(words)


def main() -> int:
    """Runs the words of the command line."""
    lines, status = lines_of(sys.argv[1:])
    if isinstance(sys.stdout, io.TextIOWrapper):
        sys.stdout.reconfigure(errors="surrogateescape")  # a name is printed as it was given
    try:
        sys.stdout.write("".join(f"{line}\n" for line in lines))
        sys.stdout.flush()
    except OSError:
        # Python would tell of it once more at its end.
        os.dup2(os.open(os.devnull, os.O_WRONLY), sys.stdout.fileno())
        return 5
    return status


if __name__ == "__main__":
    sys.exit(main())
