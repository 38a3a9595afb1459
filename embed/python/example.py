"""A design task is handed from one worker to another, and the first then gives up: `examples/delegation.asset` as calls."""

from asset import Asset, Operations


def show(asset: Asset, transaction: int, name: int) -> None:
    """Reads, and prints the value or that the reader has to wait."""
    answer = asset.read(transaction, name)
    if answer.is_wait:
        print(f"{transaction} waits for object {name}")
    else:
        print(f"{transaction} reads {answer.value} from object {name}")


def finish(asset: Asset, transaction: int) -> None:
    """Completes and commits a transaction."""
    asset.complete(transaction)
    asset.commit(transaction)


with Asset({1: 100, 2: 200}) as asset:
    for worker in (7, 8, 9):
        asset.initiate(worker)
        asset.begin(worker)

    # 7 works on both parts, and lets the reviewer 9 read part 1.
    asset.write(7, 1, 50)
    asset.write(7, 2, 60)
    asset.permit(7, 9, Operations.READ, [1])

    # 7 hands part 1 over to 8, which is responsible for it from then on. The reviewer may still read it.
    asset.delegate(7, 8, [1])
    show(asset, 7, 1)
    show(asset, 9, 1)
    finish(asset, 9)

    # The abort of 7 takes back its write of part 2, and leaves part 1 alone.
    asset.abort(7)
    show(asset, 8, 1)
    show(asset, 8, 2)

    # 8 finishes part 1, and its commit makes that stand.
    asset.write(8, 1, 55)
    finish(asset, 8)
    print(f"object 1 has {asset.value(1)}")
