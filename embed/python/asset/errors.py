"""Why a call met a fault. After each of them nothing has changed."""


class AssetError(Exception):
    """A fault of a call."""


class FullError(AssetError):
    """The history has no room for the entry with those that live transactions are owed."""


class NoMemoryError(AssetError, MemoryError):
    """Memory ran out."""


class ClosedError(AssetError):
    """The facility is closed."""


class BadCapacityError(AssetError, ValueError):
    """The capacity is not from 1 to 1,000,000."""


class DoubleObjectError(AssetError, ValueError):
    """An object is given twice: `name`, the least one."""

    def __init__(self, name: int) -> None:
        super().__init__(f"object {name} is given twice")
        self.name = name


class BadArgumentError(AssetError, ValueError):
    """A number is out of its range, a kind or detail is unknown, or objects are none, more than 16, not all different, or
    all objects of a permit to anybody."""
