"""The calls and structs of include/fabcommit.h, by ctypes."""
import ctypes
from typing import Any

from .library import load

S, B, V, U32, U64 = ctypes.c_size_t, ctypes.c_char_p, ctypes.c_void_p, ctypes.c_uint32, ctypes.c_uint64
U8, Bool, Octet = ctypes.c_uint8, ctypes.c_bool, ctypes.c_char


def struct(name: str, *fields: tuple[str, Any]) -> Any:
    return type(name, (ctypes.Structure,), {"_fields_": list(fields)})


Handle = struct("Handle", ("at", V), ("is_open", Bool))
Versions = struct("Versions", ("interface", U32), ("first_block", U32), ("last_block", U32))
Hash = U8 * 32
Receipt = struct("Receipt", ("number", U64), ("got", U64), ("flags", S), ("header_hash", Hash), ("commit_hash", Hash))
Piece = struct("Piece", ("at", S), ("len", S))
Verdict = struct(
    "Verdict", ("org", Piece), ("label", Piece), ("message", Piece), ("signature", Piece), ("role", U8), ("accepted", Bool)
)
Sizes = struct("Sizes", ("pool", S), ("verdicts", S))
Row = struct("Row", ("block", U64), ("tx", U32), ("len", S))
Scanned = struct("Scanned", ("key", Piece), ("value", Piece), ("block", U64), ("tx", U32))
ScanSizes = struct("ScanSizes", ("pool", S), ("rows", S), ("more", Bool))
Past = struct("Past", ("id", Piece), ("value", Piece), ("block", U64), ("tx", U32), ("deleted", Bool))
PastSizes = struct("PastSizes", ("pool", S), ("writes", S))
Seen = struct("Seen", ("block", U64), ("tx", U32), ("is_there", Bool))
Identity = struct("Identity", ("org", Piece), ("label", Piece), ("role", U8))
Reason = struct(
    "Reason", *((name, Piece) for name in ("name", "key", "start", "end", "id", "policy", "missing_org")), ("read", Seen), ("there", Seen),
    ("block", U64), *((name, S) for name in ("range_place", "result_place", "first_identity", "signers", "refused")), ("tx", U32),
    *((name, U8) for name in ("flag", "kind", "used_flag", "text_fault", "missing_role")),
    *((name, Bool) for name in ("has_tx", "exhausted", "has_missing", "another_order")),
)
ReasonSizes = struct("ReasonSizes", ("number", U64), ("got", U64), ("pool", S), ("reasons", S), ("identities", S))
Use = struct("Use", ("block", U64), ("tx", U32), ("flag", U8))

lib: Any = load()
H, P = ctypes.POINTER(Handle), ctypes.POINTER
CALLS: tuple[tuple[Any, ...], ...] = (
    ("versions", P(Versions)), ("open", H, B, S, B, S), ("close", H), ("share", H, H), ("submit", H, B, S, P(Receipt)),
    ("list", B, S, V, S, V, S, P(Sizes)), ("submit_by", H, B, S, V, S, V, S, P(Receipt)), ("height", H, P(U64)),
    ("get", H, B, S, B, S, P(Row), V, S), ("block", H, U64, P(Receipt)), ("flags", H, U64, V, S, P(S)),
    ("definition", H, B, S, V, S, P(S)), ("first_use", H, B, S, P(Use)),
    ("scan", H, B, S, B, S, B, S, V, S, V, S, P(ScanSizes)), ("history", H, B, S, B, S, V, S, V, S, P(PastSizes)),
    ("key_policy", H, B, S, B, S, V, S, P(S)), ("explain", H, B, S, V, S, V, S, V, S, P(ReasonSizes)),
    ("explain_by", H, B, S, V, S, V, S, V, S, V, S, V, S, P(ReasonSizes)),
)
for name, *arguments in CALLS:
    call = getattr(lib, f"fabcommit_{name}")
    call.argtypes, call.restype = arguments, None if name in ("versions", "close") else U32
