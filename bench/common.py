"""What the scripts of bench/ share: statements with their inputs, the programs, their runs, and what these take."""

import os
import resource
import subprocess
import sys

TOP = os.path.dirname(os.path.dirname(os.path.realpath(__file__)))
BUILT = os.path.join(TOP, ".build", "zk")
TARGET = os.path.join(TOP, "target", "bench")
SEED = "seed=" + 64 * "0"
PEER = os.environ.get("PEER", "")
# An independent implementation runs without special instructions, as the proved program is built for x86-64-v2.
PORTABLE = dict(os.environ, ZKPEER_PORTABLE="1", ZKPEER_PROF="1")
SQUARE = "field goldilocks\npublic y\nprivate x\nassert x * x = y\n", [9], [3]
SUMS = 16_384


def fail(text, status=1):
    print(f"{os.path.relpath(sys.argv[0], TOP)}: {text}", file=sys.stderr, flush=True)
    sys.exit(status)


def is_help(words, doc):
    """Prints a script's head where its words ask for it."""
    if words[:1] in (["-h"], ["--help"]):
        print(doc.strip())
        return True
    return False


def zk():
    """The program: ZK, or the built one, which is built first."""
    if not os.environ.get("ZK") and subprocess.call([os.path.join(TOP, "build")]):
        sys.exit(70)
    return os.path.abspath(os.environ.get("ZK") or BUILT)


def checked_peer():
    """The peer's program, if one is named."""
    if PEER and not os.access(PEER, os.X_OK):
        fail("PEER is no program", 2)
    return PEER


def compiled(source, to, *flags):
    """Compiles a C file of bench/ and gives where it is."""
    os.makedirs(os.path.dirname(to), exist_ok=True)
    if subprocess.call(["cc", "-O2", *flags, "-o", to, os.path.join(TOP, "bench", source)]):
        fail("needs a C compiler, cc", 2)
    return to


# ---- statements


def source(field, private, lines, last):
    """The text of a source with one public input y and private inputs of these names."""
    return "\n".join([f"field {field}", "public y", "private " + " ".join(private), *lines, f"assert {last} = y"]) + "\n"


def parity(count):
    """The demo's source over so many bits, its public and its private inputs."""
    bits = [f"x{i}" for i in range(1, count + 1)]
    names, lets = bits, []
    while len(names) > 1:
        joined = []
        for a, b in zip(names[::2], names[1::2]):
            joined.append(f"t{len(lets) + 1}")
            lets.append(f"let {joined[-1]} = {a} + {b} - 2 * {a} * {b}")
        names = joined + names[len(names) & ~1 :]
    values = [i % 2 for i in range(1, count + 1)]
    return source("goldilocks", bits, lets, names[0]), [sum(values) % 2], values


def products_of_sums(field="goldilocks"):
    lets = [f"let t{i} = (x{i % 256} + 3 * x{i // 64} + {i}) * (x{(7 * i + 1) % 256} - x{(i + 5) % 256})" for i in range(SUMS)]
    return source(field, [f"x{i}" for i in range(256)], lets, " + ".join(f"t{i}" for i in range(SUMS)))


def binary_tree(count):
    """A product of pairs, level by level, over GF(2^128), of ones."""
    inputs = [f"x{i}" for i in range(count)]
    names, lets = inputs, []
    while len(names) > 1:
        joined = [f"t{len(lets) + i}" for i in range(len(names) // 2)]
        lets += [f"let {name} = {a} * {b}" for name, a, b in zip(joined, names[::2], names[1::2])]
        names = joined
    return source("gf2_128", inputs, lets, names[0]), [1], [1] * count


# ---- files


def write(folder, name, content):
    with open(os.path.join(folder, name), "wb") as file:
        file.write(content if isinstance(content, bytes) else content.encode())


def write_numbers(folder, name, numbers):
    write(folder, name, "".join(f"{number}\n" for number in numbers))


def write_case(folder, name, case):
    """A statement's three files, NAME.txt, NAME.pub and NAME.priv."""
    text, public, private = case
    write(folder, f"{name}.txt", text)
    write_numbers(folder, f"{name}.pub", public)
    write_numbers(folder, f"{name}.priv", private)


def read(*path):
    with open(os.path.join(*path), "rb") as file:
        return file.read()


# ---- runs


def user_seconds(words, folder, env=None):
    """The processor seconds of a run in its own code, and the run."""
    before = resource.getrusage(resource.RUSAGE_CHILDREN).ru_utime
    ran = subprocess.run(words, cwd=folder, capture_output=True, text=True, env=env, check=False)
    return resource.getrusage(resource.RUSAGE_CHILDREN).ru_utime - before, ran


def spent(folder, words, env=None):
    """Status, milliseconds of processor time, megabytes, and pages touched first, by the helper spent.c, which holds no memory of its own.

    A script's own child would count the script's memory."""
    helper = os.path.join(folder, "spent")
    if not os.path.exists(helper):
        compiled("spent.c", helper)
    said = subprocess.run([helper, *words], cwd=folder, env=env, capture_output=True, check=True).stdout.split()
    return int(said[0]), int(said[1]) / 1e3, int(said[2]) / 1024, int(said[3])


def phases(words, folder, times):
    """The best seconds of each phase that the peer tells on standard error."""
    best = {}
    for _ in range(times):
        for line in subprocess.run([PEER, *words], cwd=folder, capture_output=True, text=True, env=PORTABLE, check=False).stderr.splitlines():
            name, _, seconds = line.partition(" ")
            best[name] = min(best.get(name, 1e9), float(seconds))
    return best
