//! Transactions that can share unfinished work: a safe wrapper over `include/asset.h`.
//!
//! ```no_run
//! use asset::{Answer, Asset, Step};
//! let mut asset = Asset::open(&[(1, 100)], 10_000)?;
//! asset.step(Step::Initiate { transaction: 7, parent: None })?;
//! asset.step(Step::Begin { transaction: 7 })?;
//! assert_eq!(asset.step(Step::Read { transaction: 7, object: 1 })?, Answer::Value(100));
//! # Ok::<(), asset::Error>(())
//! ```

mod plain;
#[doc(hidden)]
pub mod sys;

use std::fmt;

/// The objects of a permit or a delegation.
#[derive(Clone, Copy, Debug, PartialEq, Eq)]
pub enum Objects {
    /// Every object.
    All,
    /// The objects of a list.
    Listed(List),
}

/// A list of 1 to 16 objects.
#[derive(Clone, Copy, Debug, PartialEq, Eq)]
pub struct List {
    count: usize,
    objects: [u64; 16],
}

impl List {
    /// Returns the list of these objects. It answers `BadArgument` if there are none or more than 16. Objects that are not all
    /// different are refused by the step.
    pub fn new(objects: &[u64]) -> Result<List, Error> {
        if objects.is_empty() || objects.len() > 16 {
            return Err(Error::BadArgument);
        }
        let mut slots = [0; 16];
        slots[..objects.len()].copy_from_slice(objects);
        Ok(List { count: objects.len(), objects: slots })
    }

    /// Returns the objects.
    pub fn objects(&self) -> &[u64] {
        &self.objects[..self.count]
    }
}

/// What a transaction does to an object.
#[derive(Clone, Copy, Debug, PartialEq, Eq)]
pub enum Operation {
    Read,
    Write,
    Add,
}

/// What a permit lets its taker do, or anybody.
#[derive(Clone, Copy, Debug, PartialEq, Eq)]
pub enum Operations {
    Read,
    Write,
    ReadAndWrite,
    Add,
    ReadAndAdd,
    WriteAndAdd,
    All,
}

/// How the end of one transaction depends on that of another.
#[derive(Clone, Copy, Debug, PartialEq, Eq)]
pub enum Tie {
    /// The dependent commits only after its source has ended.
    CommitDependency,
    /// The same, and an abort of the source aborts the dependent.
    AbortDependency,
    /// Both commit, or neither does.
    GroupCommit,
}

/// A step that is asked for.
#[derive(Clone, Copy, Debug, PartialEq, Eq)]
pub enum Step {
    Initiate { transaction: u64, parent: Option<u64> },
    Begin { transaction: u64 },
    Read { transaction: u64, object: u64 },
    Write { transaction: u64, object: u64, value: i64 },
    /// Adds to an object. The sum wraps.
    Add { transaction: u64, object: u64, amount: i64 },
    Complete { transaction: u64 },
    Permit { giver: u64, taker: u64, operations: Operations, objects: Objects },
    /// Lets anybody do the operations on the objects, as long as the giver is live.
    PermitAny { giver: u64, operations: Operations, objects: List },
    Delegate { giver: u64, taker: u64, objects: Objects },
    Depend { tie: Tie, source: u64, dependent: u64 },
    Commit { transaction: u64 },
    Abort { transaction: u64 },
    WaitFor { transaction: u64 },
}

/// Why a step was refused. A refusal is recorded, and changes nothing else.
#[derive(Clone, Copy, Debug, PartialEq, Eq)]
pub enum Refusal {
    Unknown(u64),
    Ended(u64),
    NotRunning(u64),
    Taken(u64),
    Begun(u64),
    NoObject(u64),
    Same,
    Cycle,
    TooLate(u64),
}

/// The answer to a step.
#[derive(Clone, Copy, Debug, PartialEq, Eq)]
pub enum Answer {
    Done,
    Value(i64),
    Committed,
    Aborted,
    /// Not yet, and not recorded: ask again later.
    Wait,
    Refused(Refusal),
}

/// The status of a transaction.
#[derive(Clone, Copy, Debug, PartialEq, Eq)]
pub enum Status {
    Unknown,
    Initiated,
    Running,
    Completed,
    Committed,
    Aborted,
}

/// Why a call met a fault. After each of them nothing has changed.
#[derive(Clone, Copy, Debug, PartialEq, Eq)]
pub enum Error {
    /// The history has no room for the entry with those that live transactions are owed.
    Full,
    /// Memory ran out.
    NoMemory,
    /// The capacity is not from 1 to 1,000,000.
    BadCapacity,
    /// This object is given twice.
    DoubleObject(u64),
    /// Objects are none, more than 16, or not all different.
    BadArgument,
}

impl fmt::Display for Error {
    fn fmt(&self, f: &mut fmt::Formatter<'_>) -> fmt::Result {
        match self {
            Error::Full => write!(f, "the history has no room"),
            Error::NoMemory => write!(f, "no memory"),
            Error::BadCapacity => write!(f, "the capacity is not from 1 to 1,000,000"),
            Error::DoubleObject(object) => write!(f, "object {object} is given twice"),
            Error::BadArgument => write!(f, "the objects make no list"),
        }
    }
}

impl std::error::Error for Error {}

/// A facility, which is closed when it is dropped. It stays on its thread.
pub struct Asset(sys::Handle);

impl Asset {
    /// Opens a facility over these objects with their values, with room for `capacity` entries. It answers `BadCapacity`,
    /// `DoubleObject` or `NoMemory`.
    pub fn open(objects: &[(u64, i64)], capacity: usize) -> Result<Asset, Error> {
        let objects: Vec<sys::Object> = objects.iter().map(|&(name, value)| sys::Object { name, value }).collect();
        let mut handle = sys::Handle { is_open: false, core: std::ptr::null_mut() };
        let mut twice = 0;
        // The pointer of a `Vec` is never null, and leads to as many objects as its length says.
        let code = unsafe { sys::asset_open(&mut handle, objects.as_ptr(), objects.len(), capacity, &mut twice) };
        plain::checked(code, twice).map(|()| Asset(handle))
    }

    /// Asks for a step. A refusal or a wait is an answer; an error is a fault: `Full`, `NoMemory`, or `BadArgument` for a list
    /// in which an object stands twice.
    pub fn step(&mut self, step: Step) -> Result<Answer, Error> {
        let mut answer = sys::Answer::default();
        let code = unsafe { sys::asset_step(&mut self.0, &plain::step(step), &mut answer) };
        plain::checked(code, 0).map(|()| plain::answer(answer))
    }

    /// Returns the status of a transaction.
    pub fn status(&mut self, transaction: u64) -> Status {
        let mut status = 0;
        unsafe { sys::asset_status(&mut self.0, transaction, &mut status) };
        plain::status(status)
    }

    /// Returns the value of an object, and `None` if there is no such object.
    pub fn value(&mut self, object: u64) -> Option<i64> {
        let mut value = 0;
        let code = unsafe { sys::asset_value(&mut self.0, object, &mut value) };
        plain::found(code, value)
    }

    /// Returns the waiter of an object at the index, in order of initiation, with what it asked to do.
    pub fn waiter(&mut self, object: u64, index: usize) -> Option<(u64, Operation)> {
        let mut waiter = sys::Waiter::default();
        let code = unsafe { sys::asset_waiter(&mut self.0, object, index, &mut waiter) };
        plain::found(code, waiter).map(|waiter| (waiter.name, plain::operation(waiter.op)))
    }

    /// Returns the number of entries.
    pub fn len(&mut self) -> usize {
        let mut len = 0;
        unsafe { sys::asset_len(&mut self.0, &mut len) };
        len
    }

    /// Returns whether there is no entry.
    pub fn is_empty(&mut self) -> bool {
        self.len() == 0
    }

    /// Returns the entry at the index, oldest first, with objects in rising order, and `None` past the end.
    pub fn entry(&mut self, index: usize) -> Option<(Step, Answer)> {
        let mut step = sys::Step::default();
        let mut answer = sys::Answer::default();
        let code = unsafe { sys::asset_entry(&mut self.0, index, &mut step, &mut answer) };
        plain::found(code, (step, answer)).map(|(step, answer)| (plain::asked(&step), plain::answer(answer)))
    }

    /// Returns the number of the group of a transaction, and `None` if no step acts on it. It answers `NoMemory`.
    pub fn group_of(&mut self, transaction: u64) -> Result<Option<usize>, Error> {
        let mut group = 0;
        match unsafe { sys::asset_group_of(&mut self.0, transaction, &mut group) } {
            plain::NO_MEMORY => Err(Error::NoMemory),
            code => Ok(plain::found(code, group)),
        }
    }
}

impl Drop for Asset {
    fn drop(&mut self) {
        unsafe { sys::asset_close(&mut self.0) };
    }
}
