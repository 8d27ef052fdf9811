"""What a file is, and why it may not be read or written: for the hints of lint.py and policy_hints.py on standard error.

This is no part of the proved program. A file is looked at only where it is a regular one: a pipe gives its bytes once, to the program.
"""

import os
import re
import stat

from profiles import PROFILES, STRONG

HEAD_BYTES = 4096
MAGICS = {}
for profile in PROFILES:
    of = " of the strong profile" if profile is STRONG else ""
    MAGICS.update(dict.fromkeys(profile.circuit_magics(), f"a circuit{of}"))
    MAGICS[profile.proof_magic()] = f"a proof{of}"


def head_of(path):
    """The first bytes of a regular file, or None."""
    try:
        if not stat.S_ISREG(os.stat(path).st_mode):
            return None
        with open(path, "rb") as file:
            return file.read(HEAD_BYTES)
    except (OSError, ValueError):
        return None


def words_in(head):
    """The first words of a text, without its comments; the last word may be cut."""
    lines = (line.split(b"#", 1)[0] for line in head.split(b"\n"))
    return [word for line in lines for word in re.findall(rb"[^ \t\r]+", line)]


def kind_of(path):
    """What a file is by its first bytes, in words, or None where they do not tell."""
    head = head_of(path)
    if head is None:
        return None
    if not head:
        return "an empty file"
    if head[:4] in MAGICS:
        return MAGICS[head[:4]]
    if head.startswith(b"-----BEGIN"):
        return "a key or a certificate (PEM)"
    words = words_in(head)
    if not words:
        return None
    if words[0] == b"field" and words[1:2] in ([b"goldilocks"], [b"prime128"], [b"gf2_128"]):
        return "a statement"
    if words[0] == b"record" and len(words) > 1 and words[1].isdigit():
        return "a policy"
    if head.lstrip()[:1] in (b"{", b"["):
        return "a JSON text"
    whole = words[:-1] if len(head) == HEAD_BYTES else words
    if whole and all(re.fullmatch(rb"[0-9]+|0x[0-9a-fA-F]+", word) for word in whole):
        return "a list of numbers"
    return None


def folder_of(path):
    return os.path.dirname(path) or "."


def told_of_input(path, wanted, also=()):
    """Why a file cannot be what is wanted here, in lines; none where nothing is seen. Files of the other kinds may be meant, too."""
    if not os.path.lexists(path):
        folder = folder_of(path)
        if not os.path.isdir(folder):
            return [f"{path}: there is no folder {folder} (you are in {os.getcwd()})"]
        return [f"{path}: there is no such file (you are in {os.getcwd()})"]
    if os.path.isdir(path):
        return [f"{path} is a folder, and {wanted} is wanted"]
    if not os.path.exists(path):
        return [f"{path} is a link to {os.readlink(path)}, which is not there"]
    if not os.access(path, os.R_OK):
        return [f"you may not read {path}: ls -l says whose it is"]
    found = kind_of(path)
    return [f"{path} is {found}, and {wanted} is wanted here"] if found not in (None, wanted, *also) else []


def told_of_output(path):
    """Why a file cannot be written, in lines; none where nothing is seen."""
    if os.path.isdir(path):
        return [f"{path} is a folder: name a file in it"]
    folder = folder_of(path)
    if not os.path.isdir(folder):
        return [f"there is no folder {folder} to write {os.path.basename(path)} into: mkdir -p {folder}"]
    if os.path.exists(path) and not os.access(path, os.W_OK) and not os.access(folder, os.W_OK):
        return [f"you may not write {path}: ls -l says whose it is"]
    if not os.path.exists(path) and not os.access(folder, os.W_OK):
        return [f"you may not write into the folder {folder}"]
    return []
