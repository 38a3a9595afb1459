"""Transactions that can share unfinished work: a package over `include/asset.h`.

    from asset import Asset

    with Asset({1: 100}) as asset:
        asset.initiate(7)
        asset.begin(7)
        assert asset.read(7, 1).value == 100

The shared library is the one that the environment variable ASSET_LIBRARY names, or `libasset.so` in this package's folder.
"""

from .answers import Answer, AnswerKind, Entry, Operations, Status, StepKind, Tie, Waiter
from .errors import (
    AssetError,
    BadArgumentError,
    BadCapacityError,
    ClosedError,
    DoubleObjectError,
    FullError,
    NoMemoryError,
)
from .facility import ALL, Asset

__all__ = [
    "ALL",
    "Answer",
    "AnswerKind",
    "Asset",
    "AssetError",
    "BadArgumentError",
    "BadCapacityError",
    "ClosedError",
    "DoubleObjectError",
    "Entry",
    "FullError",
    "NoMemoryError",
    "Operations",
    "Status",
    "StepKind",
    "Tie",
    "Waiter",
]
