"""Measures a step, with the load of `embed/c/bench.c`."""

import time

from asset import Asset

TRANSACTIONS = 20_000


def run() -> float:
    """Returns the microseconds of a step."""
    with Asset({1: 1, 2: 2, 3: 3, 4: 4}, 1_000_000) as asset:
        start = time.perf_counter()
        for t in range(TRANSACTIONS):
            asset.initiate(t)
            asset.begin(t)
            asset.write(t, 1, 50)
            asset.read(t, 1)
            asset.complete(t)
            asset.commit(t)
        return (time.perf_counter() - start) / (TRANSACTIONS * 6) * 1e6


print(f"Python: {min(run() for _ in range(5)):.2f} us a step")
