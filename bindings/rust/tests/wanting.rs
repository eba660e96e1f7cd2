//! What a process answers where Rust has no memory for the answer: no event and no message is lost by it.

use dymelor::{Config, Draft, Error, Event, Process, Site, Time};
use std::alloc::{GlobalAlloc, Layout, System};
use std::cell::Cell;
use std::ptr;

thread_local! {
    /// The most bytes that are given at once on this thread.
    static MOST: Cell<usize> = const { Cell::new(usize::MAX) };
}

/// The system's memory, but for what is above [`MOST`]. The library takes its own from C.
struct Wanting;

// SAFETY: each call is that of the system's allocator, or answers that there is no memory.
unsafe impl GlobalAlloc for Wanting {
    unsafe fn alloc(&self, layout: Layout) -> *mut u8 {
        if layout.size() > MOST.with(Cell::get) {
            return ptr::null_mut();
        }
        System.alloc(layout)
    }

    unsafe fn dealloc(&self, at: *mut u8, layout: Layout) {
        System.dealloc(at, layout);
    }
}

#[global_allocator]
static WANTING: Wanting = Wanting;

/// What a call answers while no more bytes than these are given at once.
fn with_at_most<T>(bytes: usize, call: impl FnOnce() -> T) -> T {
    MOST.with(|it| it.set(bytes));
    let answer = call();
    MOST.with(|it| it.set(usize::MAX));
    answer
}

#[test]
fn no_event_and_no_message_is_lost() -> Result<(), Error> {
    let start = |site: &mut Site<'_>| {
        (1..=40).try_for_each(|time| {
            site.send(Draft {
                time: Time(time),
                ..Draft::default()
            })
        })
    };
    let run = |_: &mut Site<'_>, _: &Event| Ok(());
    let mut model = (start, run);
    let config = Config {
        number: 0,
        processes: 1,
        period: 4,
        quota: 1,
    };
    let mut process = Process::open(config, &mut model)?;
    // Enough for some messages, and not for all.
    let answer = with_at_most(3_000, || process.outbox());
    assert_eq!(answer, Err(Error::Memory));
    let messages = process.outbox()?;
    assert_eq!(messages.len(), 40);
    for message in &messages {
        process.take(message)?;
    }
    while process.run(&mut model)?.is_some() {}
    for bound in [21, 41] {
        let answer = with_at_most(100, || process.commit(Time(bound)));
        assert_eq!(answer, Err(Error::Memory));
        let times: Vec<_> = process.commit(Time(bound))?.iter().map(|it| it.time.0).collect();
        assert_eq!(times, (bound - 20..bound).collect::<Vec<_>>());
    }
    Ok(())
}
