//! A yardstick for `bench/jobs.py`: an unverified program that runs job scripts as `asset jobs` does, with threads and one
//! mutex. It knows neither permits nor delegations nor dependencies, which no job script asks for, and never runs out of memory
//! or room in an orderly way. Nothing here is part of the product.
//!
//!     rustc -O bench/plain_jobs.rs -o plain_jobs && ./plain_jobs WORKERS TURNS < SCRIPT

use std::collections::HashMap;
use std::hash::{BuildHasherDefault, Hasher};
use std::io::{Read, Write};
use std::sync::Mutex;
use std::sync::atomic::{AtomicUsize, Ordering};

/// Hashes one number.
#[derive(Default)]
struct One(u64);

impl Hasher for One {
    fn finish(&self) -> u64 {
        self.0
    }
    fn write(&mut self, _: &[u8]) {
        unreachable!()
    }
    fn write_u64(&mut self, number: u64) {
        self.0 = (number ^ (number >> 32)).wrapping_mul(0x9E37_79B9_7F4A_7C15);
        self.0 ^= self.0 >> 29;
    }
}

type Numbers = HashMap<u64, usize, BuildHasherDefault<One>>;

#[derive(Clone, Copy, PartialEq)]
enum Act {
    Read(u64),
    Write(u64, i64),
    GiveUp,
}

#[derive(Clone, Copy, PartialEq)]
enum Step {
    Initiate,
    Begin,
    Read(u64),
    Write(u64, i64),
    Complete,
    Commit,
    Abort,
}

#[derive(Clone, Copy, PartialEq)]
enum Reply {
    Done,
    Value(i64),
    NoObject,
    Committed,
    Aborted,
}

#[derive(Clone, Copy, PartialEq)]
struct Entry {
    name: u64,
    step: Step,
    reply: Reply,
}

/// The call of a job: the number of its entry, and the entry.
type Call = (usize, Entry);

struct Object {
    value: i64,
    writer: Option<usize>,
    readers: Vec<usize>,
}

#[derive(Clone, Copy, PartialEq)]
enum Status {
    Initiated,
    Running,
    Completed,
    Committed,
    Aborted,
}

struct Transaction {
    name: u64,
    status: Status,
    held: Vec<usize>,
    before: Vec<(usize, i64)>,
}

/// Objects, transactions and the history: what the mutex guards.
struct Facility {
    places: Numbers,
    objects: Vec<Object>,
    names: Numbers,
    transactions: Vec<Transaction>,
    history: Vec<Entry>,
}

impl Facility {
    fn record(&mut self, name: u64, step: Step, reply: Reply) -> Call {
        let entry = Entry { name, step, reply };
        self.history.push(entry);
        (self.history.len() - 1, entry)
    }

    /// Asks a step. Returns `None` if it waits.
    fn ask(&mut self, name: u64, step: Step) -> Option<Call> {
        if step == Step::Initiate {
            self.names.insert(name, self.transactions.len());
            self.transactions.push(Transaction {
                name,
                status: Status::Initiated,
                held: Vec::new(),
                before: Vec::new(),
            });
            return Some(self.record(name, step, Reply::Done));
        }
        let t = self.names[&name];
        let reply = match step {
            Step::Initiate => unreachable!(),
            Step::Begin => {
                self.transactions[t].status = Status::Running;
                Reply::Done
            }
            Step::Read(x) => match self.places.get(&x).copied() {
                None => Reply::NoObject,
                Some(at) => {
                    let object = &mut self.objects[at];
                    if object.writer.is_some_and(|other| other != t) {
                        return None;
                    }
                    if object.writer != Some(t) && !object.readers.contains(&t) {
                        object.readers.push(t);
                        self.transactions[t].held.push(at);
                    }
                    Reply::Value(object.value)
                }
            },
            Step::Write(x, v) => match self.places.get(&x).copied() {
                None => Reply::NoObject,
                Some(at) => {
                    let object = &mut self.objects[at];
                    if object.writer.is_some_and(|other| other != t) || object.readers.iter().any(|other| *other != t) {
                        return None;
                    }
                    if object.writer.is_none() {
                        object.writer = Some(t);
                        if object.readers.is_empty() {
                            self.transactions[t].held.push(at);
                        }
                    }
                    self.transactions[t].before.push((at, object.value));
                    object.value = v;
                    Reply::Done
                }
            },
            Step::Complete => {
                self.transactions[t].status = Status::Completed;
                Reply::Done
            }
            Step::Commit => {
                self.end(t, Status::Committed);
                Reply::Committed
            }
            Step::Abort => {
                while let Some((at, value)) = self.transactions[t].before.pop() {
                    self.objects[at].value = value;
                }
                self.end(t, Status::Aborted);
                Reply::Aborted
            }
        };
        Some(self.record(name, step, reply))
    }

    fn end(&mut self, t: usize, status: Status) {
        let transaction = &mut self.transactions[t];
        transaction.status = status;
        for at in std::mem::take(&mut transaction.held) {
            let object = &mut self.objects[at];
            object.readers.retain(|other| *other != t);
            if object.writer == Some(t) {
                object.writer = None;
            }
        }
    }
}

/// Asks a step, and again at most `turns` times while it waits.
fn ask(facility: &Mutex<Facility>, calls: &mut Vec<Call>, name: u64, step: Step, turns: u32) -> Option<Reply> {
    for turn in 0..=turns {
        let answer = facility.lock().unwrap().ask(name, step);
        if let Some(call) = answer {
            calls.push(call);
            return Some(call.1.reply);
        }
        if turn < 7 {
            (0..1 << turn).for_each(|_| std::hint::spin_loop());
        } else {
            std::thread::yield_now();
        }
    }
    None
}

/// Does the acts of a job. Returns whether all are done.
fn do_acts(facility: &Mutex<Facility>, calls: &mut Vec<Call>, name: u64, acts: &[Act], turns: u32) -> bool {
    acts.iter().all(|act| {
        let reply = match *act {
            Act::Read(x) => ask(facility, calls, name, Step::Read(x), turns),
            Act::Write(x, v) => ask(facility, calls, name, Step::Write(x, v), turns),
            Act::GiveUp => None,
        };
        !matches!(reply, None | Some(Reply::NoObject))
    })
}

/// Runs a job, and returns its calls.
fn run_job(facility: &Mutex<Facility>, name: u64, acts: &[Act], turns: u32) -> Vec<Call> {
    let mut calls = Vec::with_capacity(acts.len() + 3);
    ask(facility, &mut calls, name, Step::Begin, 0);
    if do_acts(facility, &mut calls, name, acts, turns) {
        ask(facility, &mut calls, name, Step::Complete, 0);
        ask(facility, &mut calls, name, Step::Commit, 0);
    } else {
        ask(facility, &mut calls, name, Step::Abort, 0);
    }
    calls
}

/// Whether each entry is exactly one call.
fn agree(history: &[Entry], lists: &[Vec<Call>]) -> bool {
    let mut next = vec![0; lists.len()];
    let mut owners = vec![usize::MAX; history.len()];
    for (owner, list) in lists.iter().enumerate() {
        for call in list {
            if call.0 >= history.len() || owners[call.0] != usize::MAX {
                return false;
            }
            owners[call.0] = owner;
        }
    }
    history.iter().enumerate().all(|(number, entry)| {
        let owner = owners[number];
        if owner == usize::MAX {
            return false;
        }
        let call = lists[owner][next[owner]];
        next[owner] += 1;
        call == (number, *entry)
    })
}

fn main() {
    let arguments: Vec<String> = std::env::args().collect();
    let (workers, turns): (usize, u32) = (arguments[1].parse().unwrap(), arguments[2].parse().unwrap());
    let mut text = String::new();
    std::io::stdin().read_to_string(&mut text).unwrap();
    let mut facility = Facility {
        places: Numbers::default(),
        objects: Vec::new(),
        names: Numbers::default(),
        transactions: Vec::new(),
        history: Vec::new(),
    };
    let mut jobs: Vec<(u64, Vec<Act>)> = Vec::new();
    for line in text.lines() {
        let words: Vec<&str> = line.split_whitespace().collect();
        match words.as_slice() {
            [] | ["#", ..] => {}
            ["object", x, v] => {
                facility.places.insert(x.parse().unwrap(), facility.objects.len());
                facility.objects.push(Object { value: v.parse().unwrap(), writer: None, readers: Vec::new() });
            }
            ["job", t] => jobs.push((t.parse().unwrap(), Vec::new())),
            ["read", x] => jobs.last_mut().unwrap().1.push(Act::Read(x.parse().unwrap())),
            ["write", x, v] => {
                let act = Act::Write(x.parse().unwrap(), v.parse().unwrap());
                jobs.last_mut().unwrap().1.push(act);
            }
            ["give", "up"] => jobs.last_mut().unwrap().1.push(Act::GiveUp),
            _ => panic!("bad line: {}", line),
        }
    }
    let facility = Mutex::new(facility);
    let mut lists = vec![Vec::new()];
    for (name, _) in &jobs {
        ask(&facility, &mut lists[0], *name, Step::Initiate, 0);
    }
    let taken = AtomicUsize::new(0);
    let mut ran: Vec<(usize, Vec<Call>)> = Vec::new();
    std::thread::scope(|scope| {
        let threads: Vec<_> = (0..workers)
            .map(|_| {
                scope.spawn(|| {
                    let mut ran = Vec::new();
                    loop {
                        let at = taken.fetch_add(1, Ordering::SeqCst);
                        let Some((name, acts)) = jobs.get(at) else { return ran };
                        ran.push((at, run_job(&facility, *name, acts, turns)));
                    }
                })
            })
            .collect();
        threads.into_iter().for_each(|thread| ran.extend(thread.join().unwrap()));
    });
    ran.sort_by_key(|(at, _)| *at);
    lists.extend(ran.into_iter().map(|(_, calls)| calls));
    let facility = facility.into_inner().unwrap();
    let mut said = String::new();
    let (mut committed, mut aborted) = (0, 0);
    for transaction in &facility.transactions {
        let end = match transaction.status {
            Status::Committed => "committed",
            Status::Aborted => "aborted",
            _ => "unsettled",
        };
        committed += (transaction.status == Status::Committed) as u64;
        aborted += (transaction.status == Status::Aborted) as u64;
        said += &format!("job {} {end}\n", transaction.name);
    }
    let entries = facility.history.len();
    if agree(&facility.history, &lists) {
        said += &format!("audit ok entries {entries} committed {committed} aborted {aborted}\n");
    } else {
        said += "audit differs\n";
    }
    std::io::stdout().write_all(said.as_bytes()).unwrap();
}
