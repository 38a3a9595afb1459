"""The functions and structs of `include/asset.h`, which says what each does."""

import ctypes
import os
import pathlib
from ctypes import POINTER, c_bool, c_int64, c_size_t, c_uint32, c_uint64, c_void_p


class Handle(ctypes.Structure):
    _fields_ = [("is_open", c_bool), ("core", c_void_p)]


class PlainObject(ctypes.Structure):
    _fields_ = [("name", c_uint64), ("value", c_int64)]


class PlainStep(ctypes.Structure):
    _fields_ = [
        ("kind", c_uint32),
        ("detail", c_uint32),
        ("first", c_uint64),
        ("second", c_uint64),
        ("value", c_int64),
        ("count", c_uint64),
        ("objects", c_uint64 * 16),
    ]


class PlainAnswer(ctypes.Structure):
    _fields_ = [("kind", c_uint32), ("name", c_uint64), ("value", c_int64)]


class PlainWaiter(ctypes.Structure):
    _fields_ = [("name", c_uint64), ("op", c_uint32)]


ARGUMENTS = {
    "asset_open": [POINTER(Handle), POINTER(PlainObject), c_size_t, c_size_t, POINTER(c_uint64)],
    "asset_step": [POINTER(Handle), POINTER(PlainStep), POINTER(PlainAnswer)],
    "asset_status": [POINTER(Handle), c_uint64, POINTER(c_uint32)],
    "asset_value": [POINTER(Handle), c_uint64, POINTER(c_int64)],
    "asset_waiter": [POINTER(Handle), c_uint64, c_size_t, POINTER(PlainWaiter)],
    "asset_len": [POINTER(Handle), POINTER(c_size_t)],
    "asset_entry": [POINTER(Handle), c_size_t, POINTER(PlainStep), POINTER(PlainAnswer)],
    "asset_group_of": [POINTER(Handle), c_uint64, POINTER(c_size_t)],
    "asset_close": [POINTER(Handle)],
}


def _load() -> ctypes.PyDLL:
    """Loads the shared library. Calls keep Python's lock, so that no two of them run at once."""
    beside = pathlib.Path(__file__).resolve().parent / "libasset.so"
    library = ctypes.PyDLL(os.environ.get("ASSET_LIBRARY", str(beside)))
    for name, arguments in ARGUMENTS.items():
        function = getattr(library, name)
        function.argtypes = arguments
        function.restype = c_uint32
    return library


library = _load()
