//! A design task is handed from one worker to another, and the first then gives up: `examples/delegation.asset` as calls.

use asset::{Answer, Asset, Error, List, Objects, Operations, Step};

/// Reads, and prints the value or that the reader has to wait.
fn show(asset: &mut Asset, transaction: u64, object: u64) -> Result<(), Error> {
    match asset.step(Step::Read { transaction, object })? {
        Answer::Value(value) => println!("{transaction} reads {value} from object {object}"),
        _ => println!("{transaction} waits for object {object}"),
    }
    Ok(())
}

/// Completes and commits a transaction.
fn finish(asset: &mut Asset, transaction: u64) -> Result<Answer, Error> {
    asset.step(Step::Complete { transaction })?;
    asset.step(Step::Commit { transaction })
}

fn main() -> Result<(), Error> {
    let mut asset = Asset::open(&[(1, 100), (2, 200)], 10_000)?;
    for transaction in 7..=9 {
        asset.step(Step::Initiate { transaction, parent: None })?;
        asset.step(Step::Begin { transaction })?;
    }

    // 7 works on both parts, and lets the reviewer 9 read part 1.
    let part_1 = Objects::Listed(List::new(&[1])?);
    asset.step(Step::Write { transaction: 7, object: 1, value: 50 })?;
    asset.step(Step::Write { transaction: 7, object: 2, value: 60 })?;
    asset.step(Step::Permit { giver: 7, taker: 9, operations: Operations::Read, objects: part_1 })?;

    // 7 hands part 1 over to 8, which is responsible for it from then on. The reviewer may still read it.
    asset.step(Step::Delegate { giver: 7, taker: 8, objects: part_1 })?;
    show(&mut asset, 7, 1)?;
    show(&mut asset, 9, 1)?;
    finish(&mut asset, 9)?;

    // The abort of 7 takes back its write of part 2, and leaves part 1 alone.
    asset.step(Step::Abort { transaction: 7 })?;
    show(&mut asset, 8, 1)?;
    show(&mut asset, 8, 2)?;

    // 8 finishes part 1, and its commit makes that stand.
    asset.step(Step::Write { transaction: 8, object: 1, value: 55 })?;
    finish(&mut asset, 8)?;
    println!("object 1 has {}", asset.value(1).unwrap_or_default());
    Ok(())
}
