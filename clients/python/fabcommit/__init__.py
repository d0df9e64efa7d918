"""The ledger of a committing peer, modelled on Hyperledger Fabric's, over libfabcommit.so.

    with fabcommit.Ledger(channel_text) as ledger:
        receipt = ledger.submit(block, verify)
        for row in ledger.scan("cc", start=b"car"):
            print(row.key, row.value, row.version)
"""
from . import reasons
from .errors import (
    BlockRefused, Closed, Code, Malformed, NoBlock, NoChannel, NoKeys, NoName, NoText, OldVersion, OutOfMemory, Refused,
    Shared, WrongDataHash, WrongNumber, WrongPrevious,
)
from .ledger import Ledger, versions
from .listing import Listing
from .reasons import Reason
from .records import Flag, Identity, Receipt, Request, Role, Row, Use, Verify, Version, Versions, Write

__all__ = [
    "BlockRefused", "Closed", "Code", "Flag", "Identity", "Ledger", "Listing", "Malformed", "NoBlock", "NoChannel",
    "NoKeys", "NoName", "NoText", "OldVersion", "OutOfMemory", "Reason", "Receipt", "Refused", "Request", "Role", "Row",
    "Shared", "Use", "Verify", "Version", "Versions", "Write", "WrongDataHash", "WrongNumber", "WrongPrevious",
    "reasons", "versions",
]
