"""Longfellow ZK: compile a statement, prove it, verify a proof.

>>> import lzk
>>> circuit = lzk.compile("field goldilocks\\npublic y\\nprivate x\\nassert x*x = y\\n")
>>> proof = lzk.prove(circuit, public=[9], private=[3], session=b"nonce")
>>> lzk.verify(circuit, public=[9], session=b"nonce", proof=proof)

`verify` gives nothing, and raises `Rejected` where a check fails. The circuit is the statement: take it from your own
store, and never from who sends the proof.

The calls are those of liblzk, whose code is proved (docs/EMBEDDING.md), and leave Python's lock, so threads work side
by side. Python keeps copies of what it was handed: private numbers and seeds stay in its memory until they are
overwritten. The library keeps none.

`Policy` has the calls for policies: what is shown of a record, proved and verified (docs/POLICY.md).

`python3 -m lzk help` has the commands of `zk`, in this process.
"""

from ._calls import Field, Info, Verdict, library_version
from ._errors import (
    Error, NoCircuit, NoLeaf, NoMemory, NoNodes, NoNumbers, NoPath, NoPolicy, NoRecord, NoSecret, NoShown, NoSource, NotTrue, NoValues, OverLimit,
    PolicyLimit, Rejected, TooLong, Unsaid, Unsatisfied,
)  # fmt: skip
from ._lzk import Desk, Job, circuit_info, compile, evaluate, explain, explain_each, explain_pieces, prove, sha_circuit, upgrade, verify
from ._policies import Inputs, Policy, Shown, Told, word

__all__ = [
    "Desk", "Error", "Field", "Info", "Inputs", "Job", "NoCircuit", "NoLeaf", "NoMemory", "NoNodes", "NoNumbers", "NoPath", "NoPolicy", "NoRecord",
    "NoSecret", "NoShown", "NoSource", "NoValues", "NotTrue", "OverLimit", "Policy", "PolicyLimit", "Rejected", "Shown", "Told", "TooLong", "Unsaid",
    "Unsatisfied", "Verdict", "circuit_info", "compile", "evaluate", "explain", "explain_each", "explain_pieces", "library_version", "prove",
    "sha_circuit", "upgrade", "verify", "word",
]  # fmt: skip
__version__ = "0.2"
