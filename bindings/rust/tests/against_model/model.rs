use dymelor::{Error, Found, Handle, LogKind, Logs, Time, Version};
use std::collections::BTreeMap;
use std::ops::Range;

type Live = BTreeMap<Handle, Vec<u8>>;

/// What an object means: the bytes of each live chunk, and for each kept log a whole copy of them.
#[derive(Clone)]
pub struct Model {
    version: Version,
    quota: u32,
    live: Live,
    logs: Vec<Log>,
}

#[derive(Clone)]
struct Log {
    time: Time,
    /// How many logs stand between this one and the last full one before it.
    depth: u32,
    copy: Live,
}

const EXPONENTS: std::ops::RangeInclusive<u8> = 5..=16;
const MOST_LOGS: usize = 256;
const MOST_DEPTH: u32 = 31;

impl Model {
    pub fn open(quota: u32, version: Version) -> Model {
        Model {
            version,
            quota,
            live: Live::new(),
            logs: Vec::new(),
        }
    }

    /// What an object is that was loaded from this one's file, in which the kept logs are taken again.
    pub fn loaded(&self) -> Model {
        let mut loaded = self.clone();
        for (log, depth) in loaded.logs.iter_mut().zip((0..=MOST_DEPTH).cycle()) {
            log.depth = depth;
        }
        loaded.live = self.logs.last().map_or(Live::new(), |log| log.copy.clone());
        loaded
    }

    pub fn live(&self) -> &Live {
        &self.live
    }

    pub fn newest(&self) -> Option<Time> {
        self.logs.last().map(|log| log.time)
    }

    pub fn malloc(&mut self, length: u64) -> Result<Handle, Error> {
        let exponent = class_of(length).ok_or(Error::TooLarge)?;
        let chunk = self.fresh(exponent)?;
        let bytes = vec![0; self.length_of(exponent, length)];
        self.live.insert(chunk, bytes);
        Ok(chunk)
    }

    pub fn calloc(&mut self, count: u64, length: u64) -> Result<Handle, Error> {
        self.malloc(count.checked_mul(length).ok_or(Error::TooLarge)?)
    }

    pub fn realloc(&mut self, chunk: Option<Handle>, length: u64) -> Result<Option<Handle>, Error> {
        let chunk = match chunk {
            None => return self.malloc(length).map(Some),
            Some(chunk) => chunk,
        };
        let mut bytes = self.live.get(&chunk).ok_or(Error::Dead)?.clone();
        if length == 0 {
            return self.free(Some(chunk)).map(|()| None);
        }
        let exponent = class_of(length).ok_or(Error::TooLarge)?;
        let moves = exponent != chunk.exponent();
        let to = if moves { self.fresh(exponent)? } else { chunk };
        let length = self.length_of(exponent, length);
        if moves || length != bytes.len() {
            bytes.resize(length, 0);
            self.live.insert(to, bytes);
        }
        if moves {
            self.free(Some(chunk))?;
        }
        Ok(Some(to))
    }

    pub fn free(&mut self, chunk: Option<Handle>) -> Result<(), Error> {
        if let Some(chunk) = chunk {
            self.live.remove(&chunk).ok_or(Error::Dead)?;
        }
        Ok(())
    }

    pub fn write(&mut self, chunk: Handle, at: u32, bytes: &[u8]) -> Result<(), Error> {
        let place = self.place(chunk, at, bytes.len())?;
        self.change(chunk, place).copy_from_slice(bytes);
        Ok(())
    }

    pub fn fill(&mut self, chunk: Handle, at: u32, length: u32, byte: u8) -> Result<(), Error> {
        let place = self.place(chunk, at, length as usize)?;
        self.change(chunk, place).fill(byte);
        Ok(())
    }

    pub fn read(&self, chunk: Handle, at: u32, length: usize) -> Result<Vec<u8>, Error> {
        let place = self.place(chunk, at, length)?;
        Ok(self.live[&chunk][place].to_vec())
    }

    pub fn link(&mut self, chunk: Handle, at: u32, to: Option<Handle>) -> Result<(), Error> {
        let number = to.map_or(0, Handle::number);
        self.write(chunk, at, &number.to_le_bytes())
    }

    pub fn follow(&self, chunk: Handle, at: u32) -> Result<Found, Error> {
        let mut bytes = [0; 8];
        bytes.copy_from_slice(&self.read(chunk, at, 8)?);
        let number = u64::from_le_bytes(bytes);
        Ok(match Handle::from_number(number) {
            _ if number == 0 => Found::Nil,
            Some(to) if self.live.contains_key(&to) => Found::Live(to),
            _ => Found::Loose(number),
        })
    }

    pub fn sum(&self, chunk: Handle) -> Result<u64, Error> {
        let bytes = self.live.get(&chunk).ok_or(Error::Dead)?;
        Ok(bytes.iter().map(|&byte| u64::from(byte)).sum())
    }

    pub fn size(&self, chunk: Handle) -> Result<u32, Error> {
        let bytes = self.live.get(&chunk).ok_or(Error::Dead)?;
        Ok(bytes.len() as u32)
    }

    pub fn next_chunk(&self, after: Option<Handle>) -> Option<Handle> {
        let mut chunks = self.live.keys().copied();
        chunks.find(|&chunk| after.map_or(true, |after| after < chunk))
    }

    pub fn log(&mut self, kind: LogKind, time: Time) -> Result<LogKind, Error> {
        if self.newest().map_or(false, |newest| time <= newest) {
            return Err(Error::NotAfter);
        }
        if self.logs.len() == MOST_LOGS {
            return Err(Error::LogsFull);
        }
        let depth = match self.logs.last() {
            Some(log) if kind == LogKind::Incremental && log.depth < MOST_DEPTH => log.depth + 1,
            _ => 0,
        };
        let kind = match depth {
            0 => LogKind::Full,
            _ => LogKind::Incremental,
        };
        let copy = self.live.clone();
        self.logs.push(Log { time, depth, copy });
        Ok(kind)
    }

    pub fn restore(&mut self, time: Time) -> Result<Time, Error> {
        let reached = self.reached(time);
        if reached == 0 {
            return Err(Error::NoLog);
        }
        self.logs.truncate(reached);
        let log = &self.logs[reached - 1];
        self.live = log.copy.clone();
        Ok(log.time)
    }

    pub fn prune(&mut self, bound: Time) -> Result<u32, Error> {
        let dropped = self.reached(bound).saturating_sub(1);
        self.logs.drain(..dropped);
        Ok(dropped as u32)
    }

    pub fn logs(&self) -> Result<Logs, Error> {
        let kept = self.logs.len() as u32;
        let records = kept + self.logs.first().map_or(0, |log| log.depth);
        Ok(Logs { kept, records })
    }

    /// How many logs have a time at or before this one.
    fn reached(&self, time: Time) -> usize {
        self.logs.iter().filter(|log| log.time <= time).count()
    }

    /// The segments that a class needs: those up to its live chunk with the greatest index.
    fn areas(&self, exponent: u8) -> u32 {
        let last = in_class(&self.live, exponent).next_back();
        last.map_or(0, |(chunk, _)| chunk.index() / per_area(exponent) + 1)
    }

    /// The bytes of a live chunk at a place, to be changed.
    fn change(&mut self, chunk: Handle, place: Range<usize>) -> &mut [u8] {
        match self.live.get_mut(&chunk) {
            Some(bytes) => &mut bytes[place],
            None => unreachable!("a place is that of a live chunk"),
        }
    }

    fn place(&self, chunk: Handle, at: u32, length: usize) -> Result<Range<usize>, Error> {
        let bytes = self.live.get(&chunk).ok_or(Error::Dead)?;
        let end = at as usize + length;
        if end > bytes.len() {
            return Err(Error::Range);
        }
        Ok(at as usize..end)
    }

    fn length_of(&self, exponent: u8, asked: u64) -> usize {
        match self.version {
            Version::One => 1 << exponent,
            Version::Two => asked as usize,
        }
    }

    /// The free handle with the least index of a class, where the quota allows it.
    fn fresh(&self, exponent: u8) -> Result<Handle, Error> {
        let taken = in_class(&self.live, exponent);
        let index = taken
            .zip(0..)
            .take_while(|&((chunk, _), index)| chunk.index() == index);
        let fresh = handle(exponent, index.count() as u32);
        let mut areas: u32 = EXPONENTS.map(|other| self.areas(other)).sum();
        areas += (fresh.index() / per_area(exponent) + 1).saturating_sub(self.areas(exponent));
        if areas > self.quota {
            return Err(Error::Quota);
        }
        Ok(fresh)
    }
}

fn handle(exponent: u8, index: u32) -> Handle {
    match Handle::new(exponent, index) {
        Some(handle) => handle,
        None => unreachable!("{exponent} is the exponent of a class"),
    }
}

/// The exponent of the least class that has room for so many bytes.
fn class_of(length: u64) -> Option<u8> {
    EXPONENTS
        .into_iter()
        .find(|&exponent| length <= 1 << exponent)
}

/// The chunks of a class in a segment.
fn per_area(exponent: u8) -> u32 {
    1 << (16 - exponent)
}

fn in_class(live: &Live, exponent: u8) -> impl DoubleEndedIterator<Item = (&Handle, &Vec<u8>)> {
    live.range(handle(exponent, 0)..=handle(exponent, u32::MAX))
}
