#!/usr/bin/env python3
"""Says what a statement leaves out, where it is refused, which of its asserts fails, and what a file is, on standard error.

usage: lint.py STATEMENT                     a refusal with a mark under its place, or the inputs and lets that no assert uses and the asserts that are constant
       lint.py STATEMENT PUBLIC PRIVATE      the asserts that do not hold for the numbers of two files, too
       lint.py --after STATUS COMMAND NAME.. what there is to say of a run of `zk` that ended so: ./zk calls it after a run, with the names and no keys

It reads the files again and says nothing where it cannot, as of a pipe or a statement over 256 KiB. A circuit's statement is known where ./zk compiled
it: the folder .build/sources has the paths of its statements by the circuit's id. This is no part of the proved program, which prints and ends as
ever. Without the words --after it ends with 0 where it found nothing, and else with 1.
"""

import hashlib
import json
import os
import random
import re
import stat
import subprocess
import sys

from files import kind_of, told_of_input, told_of_output
from profiles import PROFILE, STRONG
from statement import FIELDS, KINDS, Fault, Prime, Statement, check_order, names_in, occurrences, read_numbers, show, sides_of, terms_of

BUILT = os.path.join(os.path.dirname(os.path.dirname(os.path.realpath(__file__))), ".build")
KNOWN, PROGRAM = os.path.join(BUILT, "sources"), os.path.join(BUILT, "zk-strong" if PROFILE is STRONG else "zk")
MOST_BYTES = {"statement": 1 << 18, "numbers": 1 << 22, "circuit": PROFILE.most_circuit, "proof": 1 << 21}
MOST_LINES = 10
MOST_STATEMENTS = 16


class Silent(Exception):
    """There is nothing to say."""


def read(path, kind):
    """A regular file's bytes. A pipe gives them once, and has given them to the program."""
    try:
        known = os.stat(path)
        if not stat.S_ISREG(known.st_mode) or known.st_size > MOST_BYTES[kind]:
            raise Silent
        with open(path, "rb") as file:
            return file.read()
    except (OSError, ValueError):
        raise Silent from None


def plural(count, word):
    return f"{count} {word}" + ("" if count == 1 else "s")


def some(names):
    return ", ".join(names[:MOST_LINES]) + (f" and {len(names) - MOST_LINES} more" if len(names) > MOST_LINES else "")


# ---- what a statement leaves out


def unused(statement):
    """The names of each kind that no assert uses, also not by a let."""
    used = set()
    for one in statement.asserts:
        used |= names_in(one.left) | names_in(one.right)
    for name in reversed(statement.lets):
        if name in used:
            used |= names_in(statement.lets[name])
    kinds = {**statement.inputs, "let": list(statement.lets)}
    return {kind: [name for name in names if name not in used] for kind, names in kinds.items()}


def constants(statement):
    """The asserts whose value does not change with the inputs, and this value: they have it at two points taken at random."""
    field, chance = FIELDS[statement.field], random.Random(1)
    names = [name for kind in KINDS for name in statement.inputs[kind]]
    points = [sides_of(statement, {name: chance.randrange(field.size) for name in names}) for _ in range(2)]
    values = [[field.add(left, field.negative(right)) for left, right in sides] for sides in points]
    return [(one, first) for one, first, second in zip(statement.asserts, *values) if first == second]


def free(statement):
    """The asserts that hold for any numbers of the others by a choice of one private input, which stands nowhere else, and this input."""
    field, counts = FIELDS[statement.field], {}
    for expression in [*statement.lets.values(), *(side for one in statement.asserts for side in (one.left, one.right))]:
        for name in occurrences(expression):
            counts[name] = counts.get(name, 0) + 1
    found = []
    for one in statement.asserts:
        terms = terms_of(field, one.left) + terms_of(field, one.right)
        names = [name for name in statement.private_names() & set(terms) if counts[name] == 1]
        if names:
            found.append((one, min(names)))
    return found


def told_of(statement, name):
    lines = [f"{name}: no assert uses {kind} {some(names)}" for kind, names in unused(statement).items() if names]
    for one, value in constants(statement)[:MOST_LINES]:
        says = "holds for any numbers, so it says nothing" if value == 0 else "holds for no numbers"
        lines.append(f"{name}, line {one.line}: {says}: {one.text}")
    for one, chosen in free(statement)[:MOST_LINES]:
        lines.append(f"{name}, line {one.line}: some {chosen} makes this hold, whatever the other numbers are, and nothing else uses {chosen}: {one.text}")
    return lines


# ---- which assert fails


def signed(value, field):
    """A value, and that it is a small negative one."""
    return f"{value} (-{field.size - value})" if field is Prime and value > field.size - 2**32 else str(value)


def told_of_numbers(statement, name, version, public, private):
    """The asserts that do not hold, each with its check's number and both sides."""
    field = FIELDS[statement.field]
    values = {}
    for kind, file in zip(KINDS, (public, private)):
        names, text = statement.inputs[kind], read(file, "numbers")
        try:
            values.update(zip(names, read_numbers(text, len(names), field.size)))
        except Fault as fault:
            return show(file, text, fault)
    sides, lines, failing = sides_of(statement, values), [], 0
    for check, number in enumerate(check_order(statement, version)):
        left, right = sides[number]
        if left != right:
            failing += 1
            if failing <= MOST_LINES:
                one = statement.asserts[number]
                lines.append(f"{name}, line {one.line}: output {check} is not 0: {one.text}")
                lines.append(f"  left {signed(left, field)}, right {signed(right, field)}")
    return lines + ([f"{name}: {failing - MOST_LINES} more asserts do not hold"] if failing > MOST_LINES else [])


# ---- files of numbers, circuits and proofs


class Circuit:
    """What the head of a circuit's file says, and its id."""

    def __init__(self, path):
        data = read(path, "circuit")
        fields, versions = PROFILE.fields(), PROFILE.circuit_magics()
        if data[:4] not in versions or len(data) < 13 or data[4] not in fields:
            raise Silent
        self.version, (self.field, _, self.element) = versions[data[:4]], fields[data[4]]
        self.counts = {"public": int.from_bytes(data[5:9], "little"), "private": int.from_bytes(data[9:13], "little")}
        self.id, self.path = hashlib.sha256(data).hexdigest(), os.path.realpath(path)


def told_of_number_file(path, kind, circuit):
    """What is wrong with a number file, and with which circuit it may have been meant."""
    try:
        read_numbers(read(path, "numbers"), circuit.counts[kind], FIELDS[circuit.field].size)
        return []
    except Fault as fault:
        lines = show(path, read(path, "numbers"), fault)
        try:
            names = statement_of(circuit)[0].inputs[kind]
            if fault.kind == "TooFew":
                have = int(re.search(r"the file has (\d+)", fault.wanted)[1])
                lines.append(f"  missing from here: {some(names[have:])}")
        except Silent:
            pass
        return lines


def known_of(circuit_id):
    """The statements that were compiled to a circuit, the last one first: for each its path, its sum, and the path that the circuit was written to."""
    try:
        with open(os.path.join(KNOWN, circuit_id), encoding="utf-8") as file:
            known = json.load(file)
        return known if isinstance(known, list) else [known]
    except (OSError, ValueError):
        return []


def short(path):
    return os.path.relpath(path) if path.startswith(os.getcwd() + os.sep) else path


def statement_of(circuit):
    """The statement that a circuit was compiled from, and its path, where they are known and the file is as it was. Two statements may have one
    circuit: the one that was written to this circuit's file is meant, or else the last one compiled, and the others are named beside it."""
    found = []
    for known in known_of(circuit.id):
        try:
            text = read(known["path"], "statement")
            if hashlib.sha256(text).hexdigest() == known["sum"]:
                found.append((known.get("circuit") == circuit.path, short(known["path"]), text))
        except Silent:
            pass
    if not found:
        raise Silent
    is_its, path, text = next((one for one in found if one[0]), found[0])
    others = [] if is_its else [other for _, other, _ in found if other != path]
    return Statement(text), path + (f" (or {some(others)}, of the same circuit)" if others else "")


def keep(source, text, circuit):
    """Keeps which statement a circuit was compiled from, where this folder may be written."""
    this = {"path": os.path.realpath(source), "sum": hashlib.sha256(text).hexdigest(), "circuit": circuit.path}
    # A circuit's file has one statement, and a statement's file says one thing.
    others = [known for known in known_of(circuit.id) if known.get("circuit") != circuit.path and known["path"] != this["path"]]
    try:
        os.makedirs(KNOWN, exist_ok=True)
        with open(os.path.join(KNOWN, circuit.id), "w", encoding="utf-8") as file:
            json.dump([this, *others][:MOST_STATEMENTS], file)
    except OSError:
        pass


# ---- after a run of `zk`


def after_compile(status, names):
    text = read(names[0], "statement")
    try:
        statement = Statement(text)
    except Fault as fault:
        return show(names[0], text, fault) if status == 3 else []
    if status == 0:
        keep(names[0], text, Circuit(names[1]))
        return told_of(statement, names[0])
    return []


def after_eval(status, names):
    circuit = Circuit(names[0])
    if status == 3:
        return told_of_number_file(names[1], "public", circuit) or told_of_number_file(names[2], "private", circuit)
    statement, name = statement_of(circuit)
    failing = told_of_numbers(statement, name, circuit.version, names[1], names[2]) if status == 1 else []
    return failing + told_of(statement, name)


def after_prove(status, names):
    return after_eval(status, names) if status in (1, 3) else []


def told_of_other(circuit_name, circuit, proof_name, named):
    """That a proof is another circuit's."""
    lines = [f"{proof_name} is a proof of the circuit {named}", f"  and {circuit_name} is the circuit {circuit.id}"]
    paths = [short(known["path"]) for known in known_of(named)]
    if paths:
        lines.insert(1, f"  which was compiled from {some(paths)}")
    return lines


def rounds_of(width):
    return (width - 1).bit_length()


def sizes_of(circuit_name, circuit):
    """The bytes of a proof of this circuit before its path, and the most that a path has: by what `zk show` prints and docs/FORMATS.md, section 9."""
    ran = subprocess.run([PROGRAM, "show", circuit_name], stdout=subprocess.PIPE, stderr=subprocess.DEVNULL, text=True, timeout=10, check=False)
    wires = [int(count) for count in re.findall(r"^layer \d+: wires (\d+) terms \d+$", ran.stdout, re.MULTILINE)]
    if ran.returncode != 0 or not wires:
        raise Silent
    below = [rounds_of(width) for width in [*wires[1:], 1 + circuit.counts["public"] + circuit.counts["private"]]]
    sent, listed = sum(4 * k + 2 for k in below), circuit.counts["private"] + sum(4 * k + 3 for k in below)
    opened, block, element = PROFILE.opened, PROFILE.block(listed), circuit.element
    row = block - opened
    rows = 3 + -(-listed // row) + 3 * -(-len(wires) // row)
    return 68 + element * (sent + block + 2 * block - 1 + opened + block - 1) + opened * (32 + element * rows)


def told_of_length(proof_name, proof, head):
    """That a proof was cut off, or has bytes after its end."""
    if len(proof) < head + 4:
        return [f"{proof_name} was cut off: it has {len(proof)} bytes, and a proof of this circuit has {head + 4} and more"]
    whole = head + 4 + 32 * int.from_bytes(proof[head : head + 4], "little")
    if len(proof) < whole <= MOST_BYTES["proof"]:
        return [f"{proof_name} was cut off: it has {len(proof)} bytes of {whole}"]
    if len(proof) > whole:
        told = f"{proof_name} has {plural(len(proof) - whole, 'byte')} more after the proof's end, which is at byte {whole}"
        return [told, "  a line end was added, two files were joined, or prove wrote to /dev/stdout, where its line follows"]
    return []


def told_of_proof(circuit_name, proof_name):
    """Why a proof may have been rejected. Bytes 4 to 35 of its file are the circuit's id."""
    circuit, proof = Circuit(circuit_name), read(proof_name, "proof")
    if proof[:4] != PROFILE.proof_magic():
        return with_order("verify", [f"{proof_name} is {kind_of(proof_name) or 'no proof'}, and a proof is wanted here"])
    if len(proof) >= 36 and proof[4:36].hex() != circuit.id:
        return told_of_other(circuit_name, circuit, proof_name, proof[4:36].hex())
    try:
        return told_of_length(proof_name, proof, sizes_of(circuit_name, circuit))
    except (Silent, OSError, ValueError, subprocess.SubprocessError):
        return []


def after_verify(status, names):
    if status == 3:
        return told_of_number_file(names[1], "public", Circuit(names[0]))
    if status != 1:
        return []
    likely = [f"{names[2]} was made for another session or other public numbers, or was changed"]
    likely += [f"  compare session= and {names[1]} with what the prover had; the circuit is the same"]
    return told_of_proof(names[0], names[2]) or likely


def jobs_of(name):
    lines = read(name, "numbers").decode("utf-8", "replace").split("\n")
    return [(number, line.split()) for number, line in enumerate((line for line in lines if line.split()), 1)]


def after_batch(status, names):
    lines = []
    for number, job in jobs_of(names[0]):
        told = []
        try:
            if status == 1:
                told = told_of_proof(job[0], job[2])
            elif status in (3, 4):
                told = told_of_files(("circuit", "numbers", "proof"), job[:3])
        except (Silent, IndexError):
            pass
        lines += [f"job {number}: {line}" if at == 0 else line for at, line in enumerate(told)]
    return lines[: 3 * MOST_LINES]


# What is said beside a run, and what each name is: a file that is read, or one that is written.
AFTER = {
    "compile": (after_compile, ("source", "written")),
    "eval": (after_eval, ("circuit", "numbers", "numbers")),
    "prove": (after_prove, ("circuit", "numbers", "numbers", "written")),
    "verify": (after_verify, ("circuit", "numbers", "proof")),
    "batch": (after_batch, ("list",)),
    "show": (None, ("circuit",)),
    "upgrade": (None, ("circuit", "written")),
    "shacircuit": (None, ("count", "written")),
    "sha256": (None, ("circuit", "written")),
}
WANTED = {"source": "a statement", "circuit": "a circuit", "numbers": "a list of numbers", "proof": "a proof", "list": "a list of jobs"}


def told_of_files(roles, names):
    """The first file that cannot be read, or is another kind of file than its place wants."""
    for role, name in zip(roles, names):
        # No numbers are right for a circuit that has no inputs, and what a proof is its verdict says.
        also = {"numbers": ("an empty file",), "proof": (kind_of(name),)}.get(role, ())
        told = told_of_input(name, WANTED[role], also) if role in WANTED else []
        if told:
            return told
    return []


ORDERS = {
    "compile": "SOURCE CIRCUIT",
    "eval": "CIRCUIT PUBLIC PRIVATE",
    "prove": "CIRCUIT PUBLIC PRIVATE PROOF",
    "verify": "CIRCUIT PUBLIC PROOF",
    "batch": "LIST",
    "show": "CIRCUIT",
    "upgrade": "OLD NEW",
    "sha256": "CIRCUIT PROOF",
}


def with_order(command, lines):
    """Adds the order of the names where one is another kind of file."""
    is_other = lines and lines[0].endswith("is wanted here") and command in ORDERS
    return [*lines, f"  the names are: {command} {ORDERS[command]}"] if is_other else lines


def after(status, words):
    if not words or words[0] not in AFTER:
        return []
    told, roles = AFTER[words[0]]
    names = words[1 : len(roles) + 1]
    if status == 5:
        return [line for role, name in zip(roles, names) if role == "written" for line in told_of_output(name)]
    lines = with_order(words[0], told_of_files(roles, names)) if status in (3, 4) else []
    return lines or (told(status, names) if told else [])


def main(words):
    if words[:1] == ["--after"] and len(words) > 2:
        # Whatever goes wrong here is no fault of the run.
        try:
            lines = after(int(words[1]), words[2:])
        except Exception:  # pylint: disable=broad-except
            lines = []
        for line in lines:
            print(line if line.startswith("  ") else f"zk: {line}", file=sys.stderr)
        return 0
    if len(words) not in (1, 3) or words[0].startswith("-"):
        print(__doc__.split("\n\n")[1], file=sys.stderr)
        return 2
    try:
        text = read(words[0], "statement")
        try:
            statement = Statement(text)
            lines = told_of_numbers(statement, words[0], 1, *words[1:]) if len(words) == 3 else []
            lines += told_of(statement, words[0])
        except Fault as fault:
            lines = show(words[0], text, fault)
    except Silent:
        lines = [f"{words[0]} or a number file cannot be read, or is too large for this tool"]
    for line in lines:
        print(line, file=sys.stderr)
    return 1 if lines else 0


if __name__ == "__main__":
    sys.exit(main(sys.argv[1:]))
