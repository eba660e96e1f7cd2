//! Two processes whose events hop between them, delivered in any order, against a run in order.

use dymelor::{Config, Draft, Error, Event, Handle, Message, Model, Process, Site, Time};
use std::collections::BTreeMap;

const HOPS: u64 = 20;

fn after(sum: u64, event: &Event) -> u64 {
    sum.wrapping_mul(31)
        .wrapping_add(event.time.0 * 7 + event.kind)
}

/// What an event sends, from the sum that it led to.
fn sent_by(event: &Event, sum: u64) -> Option<Draft> {
    let kind = event.kind.checked_sub(1)?;
    Some(Draft {
        time: Time(event.time.0 + 1 + sum % 3),
        receiver: 1 - event.receiver,
        kind,
        ..Draft::default()
    })
}

fn first_of(number: u32) -> Draft {
    Draft {
        time: Time(1 + u64::from(number)),
        receiver: number,
        kind: HOPS,
        ..Draft::default()
    }
}

/// A model as a struct.
struct Hopping;

fn chunk_of(site: &mut Site<'_>) -> Result<Handle, Error> {
    site.state().next_chunk(None).ok_or(Error::Dead)
}

fn sum_in(bytes: &[u8]) -> u64 {
    bytes.try_into().map_or(0, u64::from_le_bytes)
}

impl Model for Hopping {
    fn start(&mut self, site: &mut Site<'_>) -> Result<(), Error> {
        let chunk = site.state().malloc(8)?;
        let number = site.number();
        site.state().write(chunk, 0, &u64::from(number).to_le_bytes())?;
        site.send(first_of(number))?;
        site.send(first_of(number))
    }

    fn run(&mut self, site: &mut Site<'_>, event: &Event) -> Result<(), Error> {
        let chunk = chunk_of(site)?;
        let bytes = site.state().chunk_mut(chunk)?;
        let sum = after(sum_in(bytes), event);
        bytes.copy_from_slice(&sum.to_le_bytes());
        sent_by(event, sum).map_or(Ok(()), |draft| site.send(draft))
    }
}

/// The sums of a run in order.
fn in_order() -> [u64; 2] {
    let (mut sums, mut serials) = ([0, 1], [0, 0]);
    let mut queue = BTreeMap::new();
    let mut put = |queue: &mut BTreeMap<_, _>, sender: u32, draft: Draft| {
        let serial = &mut serials[sender as usize];
        let event = Event {
            time: draft.time,
            priority: 0,
            sender,
            serial: *serial,
            receiver: draft.receiver,
            kind: draft.kind,
            data: draft.data,
        };
        *serial += 1;
        queue.insert((event.time, sender, event.serial), event);
    };
    for number in [0, 0, 1, 1] {
        put(&mut queue, number, first_of(number));
    }
    while let Some(first) = queue.keys().next().copied() {
        let event = queue.remove(&first).expect("it is the first one");
        let sum = &mut sums[event.receiver as usize];
        *sum = after(*sum, &event);
        if let Some(draft) = sent_by(&event, *sum) {
            put(&mut queue, event.receiver, draft);
        }
    }
    sums
}

fn config(number: u32, period: u64) -> Config {
    Config {
        number,
        processes: 2,
        period,
        quota: 1,
    }
}

/// Runs both processes to the end; half of the messages on their way come at a turn, the first and the last ones.
fn try_model<M: Model>(mut model: M, period: u64) -> Result<(), Error> {
    let mut all = [
        Process::open(config(0, period), &mut model)?,
        Process::open(config(1, period), &mut model)?,
    ];
    let (mut pool, mut undone) = (Vec::new(), 0);
    for turn in 0.. {
        for process in &mut all {
            pool.extend(process.outbox()?);
        }
        if pool.is_empty() && all.iter().all(|process| process.next_time().is_none()) {
            break;
        }
        for left in (0..(pool.len() + 1) / 2).rev() {
            let place = if (turn + left) % 2 == 0 { pool.len() - 1 } else { 0 };
            let message: Message = pool.remove(place);
            undone += all[message.event().receiver as usize].take(&message)?;
        }
        for process in &mut all {
            process.run(&mut model)?;
        }
    }
    let mut committed = 0;
    for (process, sum) in all.iter_mut().zip(in_order()) {
        let state = process.settle(&mut model)?;
        let chunk = state.next_chunk(None).ok_or(Error::Dead)?;
        assert_eq!(sum_in(state.chunk(chunk)?), sum);
        committed += process.commit(Time(u64::MAX))?.len();
        assert_eq!(process.progress().replays, 0);
    }
    assert_eq!(committed as u64, 4 * (HOPS + 1));
    assert!(undone > 0);
    Ok(())
}

#[test]
fn a_model_as_a_struct_ends_as_in_order() -> Result<(), Error> {
    for period in [1, 2, 5] {
        try_model(Hopping, period)?;
    }
    Ok(())
}

#[test]
fn a_model_of_two_closures_ends_as_in_order() -> Result<(), Error> {
    let start = |site: &mut Site<'_>| Hopping.start(site);
    let run = |site: &mut Site<'_>, event: &Event| Hopping.run(site, event);
    try_model((start, run), 3)
}

#[test]
fn what_does_not_fit_is_an_error() -> Result<(), Error> {
    let mut model = Hopping;
    assert_eq!(Process::open(config(2, 1), &mut model).err(), Some(Error::Bad));
    let mut process = Process::open(config(0, 1), &mut model)?;
    let messages = process.outbox()?;
    assert_eq!(messages.len(), 2);
    let elsewhere = Event {
        receiver: 1,
        ..*messages[0].event()
    };
    assert_eq!(process.take(&Message::Event(elsewhere)), Err(Error::NoProcess));
    assert_eq!(process.take(&messages[0]), Ok(0));
    assert_eq!(process.commit(Time(2)), Err(Error::Unsettled));
    assert_eq!(process.run(&mut model)?.as_ref(), Some(messages[0].event()));
    assert_eq!(process.commit(Time(2))?.len(), 1);
    assert_eq!(process.take(&messages[1]), Err(Error::Committed));
    assert_eq!(process.commit(Time(1)), Err(Error::Committed));
    let start = |site: &mut Site<'_>| site.send(first_of(0));
    let mut late = (start, |site: &mut Site<'_>, event: &Event| {
        site.send(Draft {
            time: event.time,
            ..first_of(0)
        })
    });
    let mut process = Process::open(config(0, 1), &mut late)?;
    let messages = process.outbox()?;
    process.take(&messages[0])?;
    assert_eq!(process.run(&mut late), Err(Error::NotLater));
    assert_eq!(process.run(&mut late), Err(Error::Open));
    assert!(process.next_time().is_some());
    Ok(())
}
