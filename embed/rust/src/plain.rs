//! Numbers of the header, to and from the enums of this crate.

use crate::{sys, Answer, Error, List, Objects, Operation, Operations, Refusal, Status, Step, Tie};

pub(crate) const NO_MEMORY: u32 = 2;

/// Returns the error of a code, which is none for 0.
pub(crate) fn checked(code: u32, twice: u64) -> Result<(), Error> {
    match code {
        0 => Ok(()),
        1 => Err(Error::Full),
        NO_MEMORY => Err(Error::NoMemory),
        5 => Err(Error::BadCapacity),
        6 => Err(Error::DoubleObject(twice)),
        7 => Err(Error::BadArgument),
        code => unreachable!("code {code}"),
    }
}

/// Returns what was asked for, unless the code says that there is none.
pub(crate) fn found<T>(code: u32, there: T) -> Option<T> {
    (code == 0).then_some(there)
}

/// Returns a plain step that lists nothing.
fn bare(kind: u32, detail: u32, first: u64, second: u64) -> sys::Step {
    sys::Step { kind, detail, first, second, ..sys::Step::default() }
}

/// Returns a plain step that lists these objects.
fn with_objects(step: sys::Step, objects: Objects) -> sys::Step {
    match objects {
        Objects::All => sys::Step { count: u64::MAX, ..step },
        Objects::Listed(list) => sys::Step { count: list.count as u64, objects: list.objects, ..step },
    }
}

/// Returns the number of operations.
fn number(operations: Operations) -> u32 {
    match operations {
        Operations::Read => 1,
        Operations::Write => 2,
        Operations::ReadAndWrite => 3,
        Operations::Add => 4,
        Operations::ReadAndAdd => 5,
        Operations::WriteAndAdd => 6,
        Operations::All => 7,
    }
}

/// Returns the operations of a plain step that the library wrote.
fn operations(step: &sys::Step) -> Operations {
    match step.detail {
        1 => Operations::Read,
        2 => Operations::Write,
        3 => Operations::ReadAndWrite,
        4 => Operations::Add,
        5 => Operations::ReadAndAdd,
        6 => Operations::WriteAndAdd,
        _ => Operations::All,
    }
}

/// Returns the plain step of a step.
pub(crate) fn step(step: Step) -> sys::Step {
    match step {
        Step::Initiate { transaction, parent: None } => bare(1, 0, transaction, 0),
        Step::Initiate { transaction, parent: Some(parent) } => bare(1, 1, transaction, parent),
        Step::Begin { transaction } => bare(2, 0, transaction, 0),
        Step::Read { transaction, object } => bare(3, 0, transaction, object),
        Step::Write { transaction, object, value } => sys::Step { value, ..bare(4, 0, transaction, object) },
        Step::Add { transaction, object, amount } => sys::Step { value: amount, ..bare(12, 0, transaction, object) },
        Step::Complete { transaction } => bare(5, 0, transaction, 0),
        Step::Permit { giver, taker, operations, objects } => with_objects(bare(6, number(operations), giver, taker), objects),
        Step::PermitAny { giver, operations, objects } => {
            with_objects(bare(13, number(operations), giver, 0), Objects::Listed(objects))
        }
        Step::Delegate { giver, taker, objects } => with_objects(bare(7, 0, giver, taker), objects),
        Step::Depend { tie, source, dependent } => {
            let detail = match tie {
                Tie::CommitDependency => 1,
                Tie::AbortDependency => 2,
                Tie::GroupCommit => 3,
            };
            bare(8, detail, source, dependent)
        }
        Step::Commit { transaction } => bare(9, 0, transaction, 0),
        Step::Abort { transaction } => bare(10, 0, transaction, 0),
        Step::WaitFor { transaction } => bare(11, 0, transaction, 0),
    }
}

/// Returns the list of a plain step.
fn listed(step: &sys::Step) -> List {
    List { count: step.count as usize, objects: step.objects }
}

/// Returns the objects that a plain step lists.
fn objects(step: &sys::Step) -> Objects {
    match step.count {
        u64::MAX => Objects::All,
        _ => Objects::Listed(listed(step)),
    }
}

/// Returns the step of a plain step that the library wrote.
pub(crate) fn asked(step: &sys::Step) -> Step {
    let (transaction, object) = (step.first, step.second);
    match step.kind {
        1 => Step::Initiate { transaction, parent: (step.detail == 1).then_some(step.second) },
        2 => Step::Begin { transaction },
        3 => Step::Read { transaction, object },
        4 => Step::Write { transaction, object, value: step.value },
        5 => Step::Complete { transaction },
        6 => {
            Step::Permit { giver: step.first, taker: step.second, operations: operations(step), objects: objects(step) }
        }
        7 => Step::Delegate { giver: step.first, taker: step.second, objects: objects(step) },
        8 => {
            let tie = match step.detail {
                1 => Tie::CommitDependency,
                2 => Tie::AbortDependency,
                _ => Tie::GroupCommit,
            };
            Step::Depend { tie, source: step.first, dependent: step.second }
        }
        9 => Step::Commit { transaction },
        10 => Step::Abort { transaction },
        11 => Step::WaitFor { transaction },
        12 => Step::Add { transaction, object, amount: step.value },
        13 => Step::PermitAny { giver: step.first, operations: operations(step), objects: listed(step) },
        kind => unreachable!("step of kind {kind}"),
    }
}

/// Returns the answer of a plain answer that the library wrote.
pub(crate) fn answer(answer: sys::Answer) -> Answer {
    let name = answer.name;
    match answer.kind {
        1 => Answer::Done,
        2 => Answer::Value(answer.value),
        3 => Answer::Committed,
        4 => Answer::Aborted,
        5 => Answer::Wait,
        16 => Answer::Refused(Refusal::Unknown(name)),
        17 => Answer::Refused(Refusal::Ended(name)),
        18 => Answer::Refused(Refusal::NotRunning(name)),
        19 => Answer::Refused(Refusal::Taken(name)),
        20 => Answer::Refused(Refusal::Begun(name)),
        21 => Answer::Refused(Refusal::NoObject(name)),
        22 => Answer::Refused(Refusal::Same),
        23 => Answer::Refused(Refusal::Cycle),
        24 => Answer::Refused(Refusal::TooLate(name)),
        kind => unreachable!("answer of kind {kind}"),
    }
}

/// Returns the status of this number.
pub(crate) fn status(number: u32) -> Status {
    match number {
        0 => Status::Unknown,
        1 => Status::Initiated,
        2 => Status::Running,
        3 => Status::Completed,
        4 => Status::Committed,
        5 => Status::Aborted,
        number => unreachable!("status {number}"),
    }
}

/// Returns the operation of this number.
pub(crate) fn operation(number: u32) -> Operation {
    match number {
        1 => Operation::Read,
        2 => Operation::Write,
        _ => Operation::Add,
    }
}
