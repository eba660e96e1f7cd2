//! Random calls of objects, compared with a map of whole copies.

mod model;
mod random;
mod trial;

use dymelor::{Error, LogKind, Object, Time, Version};
use std::sync::Mutex;
use std::thread;
use trial::{Tally, Trial};

const CALLS: u64 = 10_000;

/// The answers that random calls must have met, besides those of the calls that were done.
const REFUSALS: [&str; 21] = [
    "malloc TooLarge",
    "malloc Quota",
    "calloc TooLarge",
    "calloc Quota",
    "realloc Dead",
    "realloc TooLarge",
    "realloc Quota",
    "free Dead",
    "write Dead",
    "write Range",
    "fill Dead",
    "fill Range",
    "read Dead",
    "read Range",
    "link Dead",
    "link Range",
    "follow Dead",
    "follow Range",
    "log NotAfter",
    "log LogsFull",
    "restore NoLog",
];

fn version_of(seed: u64) -> Version {
    match seed % 2 {
        0 => Version::One,
        _ => Version::Two,
    }
}

fn run(seed: u64, calls: u64) -> Result<Tally, Error> {
    println!("seed {seed}");
    let mut trial = Trial::of(seed, version_of(seed))?;
    trial.run(calls);
    Ok(trial.tally)
}

#[test]
fn random_calls_are_those_of_a_map_of_whole_copies() -> Result<(), Error> {
    let mut sum = Tally::new();
    for seed in 1..=8 {
        for (answer, count) in run(seed, CALLS)? {
            *sum.entry(answer).or_default() += count;
        }
    }
    println!("{sum:#?}");
    for refusal in REFUSALS {
        assert!(
            sum.contains_key(refusal),
            "no call was answered by {refusal}"
        );
    }
    Ok(())
}

#[test]
fn four_threads_have_an_object_each() {
    thread::scope(|scope| {
        let threads = [101, 102, 103, 104].map(|seed| scope.spawn(move || run(seed, CALLS)));
        for thread in threads {
            assert!(matches!(thread.join(), Ok(Ok(_))));
        }
    });
}

/// A trial begins here, goes on in a thread after each of which another takes it over, and ends here.
#[test]
fn an_object_crosses_from_thread_to_thread() -> Result<(), Error> {
    let mut trial = Trial::of(201, Version::Two)?;
    println!("seed 201");
    for _ in 0..20 {
        trial.run(200);
        trial = match thread::spawn(move || {
            trial.run(300);
            trial
        })
        .join()
        {
            Ok(trial) => trial,
            Err(_) => panic!("the thread ended with a difference"),
        };
    }
    trial.run(200);
    Ok(())
}

/// An object, and the time of its last event.
type Clocked = (Object, Time);

/// Threads take turns of one object behind a lock, each with a chunk of its own.
#[test]
fn threads_take_turns_of_one_object() -> Result<(), Error> {
    let clocked = Mutex::new((Object::open(4, Version::Two)?, Time(0)));
    thread::scope(|scope| {
        for byte in 1..=4 {
            let clocked = &clocked;
            scope.spawn(move || fill_by_turns(clocked, byte));
        }
    });
    let (object, _) = clocked.into_inner().expect("no thread panicked");
    let mut sums: Vec<_> = object.chunks().map(|chunk| object.sum(chunk)).collect();
    sums.sort_by_key(|sum| sum.unwrap_or(0));
    assert_eq!(sums, [Ok(100), Ok(200), Ok(300), Ok(400)]);
    Ok(())
}

/// Fills a chunk of a hundred bytes, one at each turn. A turn is an event, its log, and a second event that is rolled back.
fn fill_by_turns(clocked: &Mutex<Clocked>, byte: u8) {
    let lock = || clocked.lock().expect("no thread panicked");
    let chunk = lock().0.malloc(100).expect("four segments have room");
    for at in 0..100 {
        let (object, time) = &mut *lock();
        time.0 += 1;
        assert_eq!(object.write(chunk, at, &[byte]), Ok(()));
        assert!(object.log(LogKind::Incremental, *time).is_ok());
        assert_eq!(object.fill(chunk, 0, 100, 9), Ok(()));
        assert_eq!(object.restore(*time), Ok(*time));
        assert!(object.prune(*time).is_ok());
    }
}
