//! All worked rows, from the file that ASSET_ROWS names; wrong arguments; and a thousand handles.

use asset::{sys, Answer, Asset, Error, List, Objects, Operation, Operations, Refusal, Status, Step, Tie};

/// Reads a list of objects: numbers with commas between them.
fn list(word: &str) -> List {
    let objects: Vec<u64> = word.split(',').map(|part| part.parse().unwrap()).collect();
    List::new(&objects).unwrap()
}

/// Reads a set of objects: `all`, or numbers with commas between them.
fn set(word: &str) -> Objects {
    match word {
        "all" => Objects::All,
        word => Objects::Listed(list(word)),
    }
}

/// Reads the line of a step.
fn step(line: &str) -> Step {
    let words: Vec<&str> = line.split(' ').collect();
    let n = |i: usize| words[i].parse::<u64>().unwrap();
    match words[0] {
        "initiate" => Step::Initiate { transaction: n(1), parent: (words.len() == 3).then(|| n(2)) },
        "begin" => Step::Begin { transaction: n(1) },
        "read" => Step::Read { transaction: n(1), object: n(2) },
        "write" => Step::Write { transaction: n(1), object: n(2), value: words[3].parse().unwrap() },
        "add" => Step::Add { transaction: n(1), object: n(2), amount: words[3].parse().unwrap() },
        "complete" => Step::Complete { transaction: n(1) },
        "permit" => {
            let operations = match words[3] {
                "r" => Operations::Read,
                "w" => Operations::Write,
                "rw" => Operations::ReadAndWrite,
                "a" => Operations::Add,
                "ra" => Operations::ReadAndAdd,
                "wa" => Operations::WriteAndAdd,
                "rwa" => Operations::All,
                word => panic!("operations {word}"),
            };
            match words[2] {
                "any" => Step::PermitAny { giver: n(1), operations, objects: list(words[4]) },
                _ => Step::Permit { giver: n(1), taker: n(2), operations, objects: set(words[4]) },
            }
        }
        "delegate" => Step::Delegate { giver: n(1), taker: n(2), objects: set(words[3]) },
        "depend" => {
            let tie = match words[1] {
                "cd" => Tie::CommitDependency,
                "ad" => Tie::AbortDependency,
                "gc" => Tie::GroupCommit,
                word => panic!("kind {word}"),
            };
            Step::Depend { tie, source: n(2), dependent: n(3) }
        }
        "commit" => Step::Commit { transaction: n(1) },
        "abort" => Step::Abort { transaction: n(1) },
        "wait" => Step::WaitFor { transaction: n(1) },
        word => panic!("keyword {word}"),
    }
}

/// Returns what a script would print.
fn text(answer: &Result<Answer, Error>) -> String {
    let answer = match answer {
        Ok(answer) => answer,
        Err(Error::Full) => return "full".into(),
        Err(error) => panic!("{error}"),
    };
    match answer {
        Answer::Done => "ok".into(),
        Answer::Value(value) => value.to_string(),
        Answer::Committed => "committed".into(),
        Answer::Aborted => "aborted".into(),
        Answer::Wait => "wait".into(),
        Answer::Refused(Refusal::Unknown(t)) => format!("refused unknown {t}"),
        Answer::Refused(Refusal::Ended(t)) => format!("refused ended {t}"),
        Answer::Refused(Refusal::NotRunning(t)) => format!("refused not running {t}"),
        Answer::Refused(Refusal::Taken(t)) => format!("refused taken {t}"),
        Answer::Refused(Refusal::Begun(t)) => format!("refused begun {t}"),
        Answer::Refused(Refusal::NoObject(x)) => format!("refused no object {x}"),
        Answer::Refused(Refusal::Same) => "refused same".into(),
        Answer::Refused(Refusal::Cycle) => "refused cycle".into(),
        Answer::Refused(Refusal::TooLate(t)) => format!("refused too late {t}"),
    }
}

/// Returns the step with its objects in rising order, as an entry has them.
fn as_recorded(step: Step) -> Step {
    let rising = |list: List| {
        let mut objects = list.objects().to_vec();
        objects.sort_unstable();
        List::new(&objects).unwrap()
    };
    let sorted = |objects: Objects| match objects {
        Objects::All => Objects::All,
        Objects::Listed(list) => Objects::Listed(rising(list)),
    };
    match step {
        Step::Permit { giver, taker, operations, objects } => Step::Permit { giver, taker, operations, objects: sorted(objects) },
        Step::PermitAny { giver, operations, objects } => Step::PermitAny { giver, operations, objects: rising(objects) },
        Step::Delegate { giver, taker, objects } => Step::Delegate { giver, taker, objects: sorted(objects) },
        step => step,
    }
}

/// Runs a row: its objects are opened, each step gets its reply, and the history reads back.
fn run_row(capacity: usize, lines: &[&str]) {
    let split = lines.iter().position(|line| !line.starts_with("object ")).unwrap_or(lines.len());
    let objects: Vec<(u64, i64)> = lines[..split]
        .iter()
        .map(|line| {
            let words: Vec<&str> = line.split(' ').collect();
            (words[1].parse().unwrap(), words[2].parse().unwrap())
        })
        .collect();
    let mut asset = Asset::open(&objects, capacity).unwrap();
    let mut recorded = Vec::new();
    for pair in lines[split..].chunks(2) {
        let step = step(pair[0]);
        let answer = asset.step(step);
        assert_eq!(text(&answer), pair[1].strip_prefix("= ").unwrap(), "{}", pair[0]);
        match answer {
            Ok(Answer::Wait) | Err(_) => {}
            Ok(answer) => recorded.push((as_recorded(step), answer)),
        }
    }
    assert_eq!(asset.len(), recorded.len());
    let entries: Vec<_> = (0..=recorded.len()).map_while(|index| asset.entry(index)).collect();
    assert_eq!(entries, recorded);
}

#[test]
fn all_rows() {
    let rows = std::fs::read_to_string(std::env::var("ASSET_ROWS").unwrap()).unwrap();
    let mut count = 0;
    for row in rows.split("end\n").filter(|row| !row.is_empty()) {
        let (head, lines) = row.split_once('\n').unwrap();
        println!("{head}");
        run_row(head.split(' ').nth(2).unwrap().parse().unwrap(), &lines.lines().collect::<Vec<_>>());
        count += 1;
    }
    assert!(count >= 51);
}

#[test]
fn wrong_arguments() {
    assert_eq!(Asset::open(&[(1, 1)], 0).err(), Some(Error::BadCapacity));
    assert_eq!(Asset::open(&[(1, 1)], 1_000_001).err(), Some(Error::BadCapacity));
    assert_eq!(Asset::open(&[(5, 1), (1, 2), (5, 3)], 10).err(), Some(Error::DoubleObject(5)));
    assert_eq!(List::new(&[]), Err(Error::BadArgument));
    assert_eq!(List::new(&[1; 17]), Err(Error::BadArgument));
    let mut asset = Asset::open(&[], 10).unwrap();
    let objects = Objects::Listed(List::new(&[1, 2, 1]).unwrap());
    assert_eq!(asset.step(Step::Delegate { giver: 7, taker: 8, objects }), Err(Error::BadArgument));
    assert!(asset.is_empty());
}

/// What the wrapper's types rule out, asked of the library itself.
#[test]
fn wrong_arguments_of_the_header() {
    let mut closed = sys::Handle { is_open: false, core: std::ptr::null_mut() };
    let mut answer = sys::Answer { kind: 77, name: 77, value: 77 };
    let mut step = sys::Step { kind: 2, first: 7, ..sys::Step::default() };
    let mut twice = 0;
    unsafe {
        assert_eq!(sys::asset_step(&mut closed, &step, &mut answer), 3);
        assert_eq!(sys::asset_close(&mut closed), 3);
        let objects = [sys::Object { name: 1, value: 1 }];
        assert_eq!(sys::asset_open(&mut closed, objects.as_ptr(), 1, 10, &mut twice), 0);
        assert_eq!(sys::asset_open(&mut closed, objects.as_ptr(), 1, 10, &mut twice), 4);
        for kind in [0, 14, 99, u32::MAX] {
            step.kind = kind;
            assert_eq!(sys::asset_step(&mut closed, &step, &mut answer), 7);
        }
        for count in [0, 17, u64::MAX - 1] {
            step = sys::Step { kind: 7, first: 7, second: 8, count, ..sys::Step::default() };
            assert_eq!(sys::asset_step(&mut closed, &step, &mut answer), 7);
        }
        step = sys::Step { kind: 13, detail: 1, first: 7, count: u64::MAX, ..sys::Step::default() };
        assert_eq!(sys::asset_step(&mut closed, &step, &mut answer), 7);
        let mut len = 77;
        assert_eq!((sys::asset_len(&mut closed, &mut len), len), (0, 0));
        assert_eq!(sys::asset_close(&mut closed), 0);
        assert_eq!(sys::asset_close(&mut closed), 3);
    }
    assert_eq!((answer.kind, answer.name, answer.value), (77, 77, 77));
}

#[test]
fn questions() {
    let mut asset = Asset::open(&[(1, 100)], 100).unwrap();
    for transaction in [7, 8, 9] {
        asset.step(Step::Initiate { transaction, parent: None }).unwrap();
        asset.step(Step::Begin { transaction }).unwrap();
    }
    assert_eq!(asset.step(Step::Write { transaction: 7, object: 1, value: -5 }), Ok(Answer::Done));
    assert_eq!(asset.step(Step::Read { transaction: 8, object: 1 }), Ok(Answer::Wait));
    assert_eq!(asset.waiter(1, 0), Some((8, Operation::Read)));
    assert_eq!(asset.waiter(1, 1), None);
    assert_eq!((asset.value(1), asset.value(2)), (Some(-5), None));
    assert_eq!((asset.status(7), asset.status(6)), (Status::Running, Status::Unknown));
    asset.step(Step::Delegate { giver: 9, taker: 8, objects: Objects::All }).unwrap();
    assert_eq!(asset.group_of(7), Ok(Some(0)));
    assert_eq!((asset.group_of(8), asset.group_of(9)), (Ok(Some(1)), Ok(Some(1))));
    assert_eq!(asset.group_of(6), Ok(None));
}

#[test]
fn thousand_handles() {
    let mut assets: Vec<Asset> = (0..1000).map(|value| Asset::open(&[(1, value)], 10).unwrap()).collect();
    for (value, asset) in (0..).zip(&mut assets) {
        asset.step(Step::Initiate { transaction: 7, parent: None }).unwrap();
        assert_eq!(asset.value(1), Some(value));
    }
}
