"""The processes below one: to which crate's check each belongs, and the processor seconds that it took."""

import collections
import os

TICKS = os.sysconf("SC_CLK_TCK")
KINDS = ("proof", "tests", "edits", "programs")


def read(path):
    with open(path, "rb") as file:
        return file.read()


def look_at(pid):
    """The parent, the start, the processor seconds, the words and the folder of a process; None where it is gone."""
    try:
        fields = read(f"/proc/{pid}/stat").rsplit(b")", 1)[1].split()
        words = read(f"/proc/{pid}/cmdline").decode(errors="replace").split("\0")
        folder = os.readlink(f"/proc/{pid}/cwd")
    except (OSError, IndexError):
        return None
    seconds = (int(fields[11]) + int(fields[12])) / TICKS
    return int(fields[1]), fields[19], seconds, words, folder


def below(root):
    """What look_at finds of each process below one, by its number: parents before their children."""
    looked = {int(pid): look_at(pid) for pid in os.listdir("/proc") if pid.isdigit()}
    children = collections.defaultdict(list)
    for pid, it in looked.items():
        if it:
            children[it[0]].append(pid)
    left = children[root][:]
    while left:
        pid = left.pop()
        yield pid, looked[pid]
        left += children[pid]


def owner(words, folder):
    """The crate and the kind of work of a check; None of another process."""
    if "--crate-name" not in words:
        return None
    name = words[words.index("--crate-name") + 1]
    kind = "edits" if "rt-edit" in folder else "tests" if "--test" in words else "proof"
    return name, "programs" if kind == "proof" and "--toolchain" in words else kind


def sample(root, seen):
    """Notes the processor seconds so far of each process below one, and the check that it belongs to."""
    owners = {root: ("others", "programs")}
    for pid, (parent, start, seconds, words, folder) in below(root):
        owners[pid] = owner(words, folder) or owners[parent]
        if words == [""] and (pid, start) in seen:
            # Of one that has ended, the system tells the seconds still, and no words.
            owners[pid] = seen[pid, start][:2]
        seen[pid, start] = (*owners[pid], seconds)


def sums(seen):
    """The processor seconds of each crate, by the kind of work."""
    found = collections.defaultdict(collections.Counter)
    for name, kind, seconds in seen.values():
        found[name][kind] += seconds
    return found
