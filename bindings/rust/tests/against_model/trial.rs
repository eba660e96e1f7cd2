use crate::model::Model;
use crate::random::Random;
use dymelor::{Error, Handle, LogKind, Object, Time, Version};
use std::collections::BTreeMap;
use std::fmt::Debug;

/// How often each call had each answer.
pub type Tally = BTreeMap<String, u32>;

/// Random calls of an object and of its model, whose answers are compared.
pub struct Trial {
    seed: u64,
    number: u64,
    random: Random,
    object: Object,
    model: Model,
    pub tally: Tally,
}

impl Trial {
    pub fn of(seed: u64, version: Version) -> Result<Trial, Error> {
        let mut random = Random::of(seed);
        let quota = 2 + random.below(10) as u32;
        Ok(Trial {
            seed,
            number: 0,
            random,
            object: Object::open(quota, version)?,
            model: Model::open(quota, version),
            tally: Tally::new(),
        })
    }

    /// Makes so many calls, and compares the whole heap after each hundred and at the end.
    pub fn run(&mut self, calls: u64) {
        for _ in 0..calls {
            self.number += 1;
            // Half of the time logs are hoarded, so that there come to be as many as an object keeps.
            if self.number / 2_500 % 2 == 1 {
                self.hoard();
            } else {
                self.call();
            }
            if self.number % 100 == 0 {
                self.compare(&self.object, &self.model);
            }
        }
        self.compare(&self.object, &self.model);
    }

    fn call(&mut self) {
        match self.random.below(1_000) {
            0..=9 => self.save_and_load(),
            10..=49 => self.restore(60),
            50..=69 => self.prune(),
            70..=79 => self.restore(u64::MAX),
            80..=179 => self.log(),
            _ => self.heap_call(),
        }
    }

    fn hoard(&mut self) {
        match self.random.below(1_000) {
            0..=19 => self.restore(8),
            20..=299 => self.log(),
            _ => self.heap_call(),
        }
    }

    fn heap_call(&mut self) {
        match self.random.below(16) {
            0 | 1 => self.malloc(),
            2 => self.calloc(),
            3 => self.realloc(),
            4 | 5 => self.free(),
            6 | 7 => self.write(),
            8 => self.fill(),
            9 => self.read(),
            10 => self.link(),
            11 => self.follow(),
            12 => self.look(),
            13 => self.borrow(),
            14 => self.change(),
            _ => self.walk(),
        }
    }

    fn malloc(&mut self) {
        let length = self.length();
        let told = self.object.malloc(length);
        let wanted = self.model.malloc(length);
        self.expect("malloc", told, wanted);
    }

    fn calloc(&mut self) {
        let count = 1 << self.random.below(34);
        let length = self.length() / (count / 2).max(1);
        let told = self.object.calloc(count, length);
        let wanted = self.model.calloc(count, length);
        self.expect("calloc", told, wanted);
    }

    fn realloc(&mut self) {
        let (chunk, length) = (self.chunk_or_nil(), self.length());
        let told = self.object.realloc(chunk, length);
        let wanted = self.model.realloc(chunk, length);
        self.expect("realloc", told, wanted);
    }

    fn free(&mut self) {
        let chunk = self.chunk_or_nil();
        let told = self.object.free(chunk);
        let wanted = self.model.free(chunk);
        self.expect("free", told, wanted);
    }

    fn write(&mut self) {
        let chunk = self.chunk();
        let (at, length) = self.place(chunk);
        let bytes = self.random.bytes(length.min(70_000) as usize);
        let told = self.object.write(chunk, at, &bytes);
        let wanted = self.model.write(chunk, at, &bytes);
        self.expect("write", told, wanted);
    }

    fn fill(&mut self) {
        let chunk = self.chunk();
        let (at, length) = self.place(chunk);
        let byte = self.random.number() as u8;
        let told = self.object.fill(chunk, at, length, byte);
        let wanted = self.model.fill(chunk, at, length, byte);
        self.expect("fill", told, wanted);
    }

    fn read(&mut self) {
        let chunk = self.chunk();
        let (at, length) = self.place(chunk);
        let length = length.min(70_000) as usize;
        let before = self.random.bytes(length);
        let mut bytes = before.clone();
        let told = self.object.read(chunk, at, &mut bytes);
        let wanted = self.model.read(chunk, at, length);
        if told.is_err() {
            assert_eq!(
                bytes,
                before,
                "a refused read wrote, {}",
                self.place_of_trial()
            );
        }
        self.expect("read", told.map(|()| bytes), wanted);
    }

    fn link(&mut self) {
        let (chunk, to) = (self.chunk(), self.chunk_or_nil());
        let at = self.place(chunk).0;
        let told = self.object.link(chunk, at, to);
        let wanted = self.model.link(chunk, at, to);
        self.expect("link", told, wanted);
    }

    /// Follows eight bytes: half of the time those of a link that is made before, else any.
    fn follow(&mut self) {
        let (chunk, to) = (self.chunk(), self.chunk_or_nil());
        let at = self.place(chunk).0;
        if self.random.once_in(2) {
            let told = self.object.link(chunk, at, to);
            let wanted = self.model.link(chunk, at, to);
            self.expect("link", told, wanted);
        }
        let told = self.object.follow(chunk, at);
        let wanted = self.model.follow(chunk, at);
        self.expect("follow", told, wanted);
    }

    fn look(&mut self) {
        let chunk = self.chunk();
        self.expect("sum", self.object.sum(chunk), self.model.sum(chunk));
        self.expect("size", self.object.size(chunk), self.model.size(chunk));
    }

    fn borrow(&mut self) {
        let chunk = self.chunk();
        let told = self.object.chunk(chunk).map(<[u8]>::to_vec);
        let size = self.model.size(chunk);
        let wanted = size.and_then(|size| self.model.read(chunk, 0, size as usize));
        self.expect("chunk", told, wanted);
    }

    /// Changes a part of a chunk where it lies.
    fn change(&mut self) {
        let chunk = self.chunk();
        let size = self.model.size(chunk).unwrap_or(0) as usize;
        let at = self.random.below(size as u64 + 1) as usize;
        let length = self.random.below((size - at) as u64 + 1) as usize;
        let bytes = self.random.bytes(length);
        let told = self.object.chunk_mut(chunk);
        let told = told.map(|all| all[at..at + length].copy_from_slice(&bytes));
        // The object has it as a write of all bytes.
        let mut all = self.model.read(chunk, 0, size).unwrap_or_default();
        all[at..at + length].copy_from_slice(&bytes);
        let wanted = self.model.write(chunk, 0, &all);
        self.expect("chunk_mut", told, wanted);
    }

    fn walk(&mut self) {
        let after = self.chunk_or_nil();
        let told = Ok(self.object.next_chunk(after));
        let wanted = Ok(self.model.next_chunk(after));
        self.expect("next", told, wanted);
        self.expect("logs", self.object.logs(), self.model.logs());
    }

    fn log(&mut self) {
        let kind = match self.random.below(8) {
            0 => LogKind::Full,
            _ => LogKind::Incremental,
        };
        let time = match self.model.newest() {
            None => Time(self.random.below(100)),
            Some(newest) if self.random.once_in(16) => Time(self.random.below(newest.0 + 1)),
            Some(newest) => Time(newest.0 + 1 + self.random.below(4)),
        };
        let told = self.object.log(kind, time);
        let wanted = self.model.log(kind, time);
        self.expect("log", told, wanted);
    }

    /// Restores to at most so much before the newest log.
    fn restore(&mut self, most: u64) {
        let newest = self.model.newest().unwrap_or_default().0;
        let back = self.random.below(most.min(newest + 3));
        let time = Time((newest + 2).saturating_sub(back));
        let told = self.object.restore(time);
        let wanted = self.model.restore(time);
        self.expect("restore", told, wanted);
        self.compare(&self.object, &self.model);
    }

    fn prune(&mut self) {
        let newest = self.model.newest().unwrap_or_default().0;
        let bound = Time(newest.saturating_sub(self.random.below(120)));
        let told = self.object.prune(bound);
        let wanted = self.model.prune(bound);
        self.expect("prune", told, wanted);
    }

    /// Saves the object, loads the file, and half of the time goes on with what was loaded. A file that is cut or goes on is none.
    fn save_and_load(&mut self) {
        let mut file = self.answer("save", self.object.save("lp_7"));
        let cut = self.random.below(file.len() as u64) as usize;
        let told = Object::load(&file[..cut]).map(|_| ());
        assert!(
            matches!(told, Err(Error::File { .. })),
            "a cut file, {}",
            self.place_of_trial()
        );

        let loaded = self.answer("load", Object::load(&file));
        let meant = self.model.loaded();
        self.compare(&loaded, &meant);

        file.push(0);
        let part = self.answer("logs", self.object.logs()).kept + 1;
        let told = Object::load(&file).map(|_| ());
        assert_eq!(
            told,
            Err(Error::File { part }),
            "a longer file, {}",
            self.place_of_trial()
        );
        if self.random.once_in(2) {
            self.object = loaded;
            self.model = meant;
        }
    }

    /// A chunk: a live one, where there is one, or now and then any handle.
    fn chunk(&mut self) -> Handle {
        let live = self.model.live();
        let count = live.len() as u64;
        if count > 0 && !self.random.once_in(12) {
            let nth = self.random.below(count) as usize;
            if let Some(&chunk) = self.model.live().keys().nth(nth) {
                return chunk;
            }
        }
        let (exponent, index) = (5 + self.random.below(12), self.random.below(2_100));
        match Handle::new(exponent as u8, index as u32) {
            Some(chunk) => chunk,
            None => unreachable!("{exponent} is the exponent of a class"),
        }
    }

    fn chunk_or_nil(&mut self) -> Option<Handle> {
        let is_nil = self.random.once_in(16);
        (!is_nil).then(|| self.chunk())
    }

    /// A length that is asked for: often a short one, seldom one that no class has.
    fn length(&mut self) -> u64 {
        match self.random.below(40) {
            0 => self.random.number(),
            1 => 65_530 + self.random.below(12),
            2..=4 => self.random.below(66_000),
            5..=14 => self.random.below(3_000),
            _ => self.random.below(150),
        }
    }

    /// Where bytes begin in a chunk, and how many there are: mostly such as it has, seldom any.
    fn place(&mut self, chunk: Handle) -> (u32, u32) {
        let size = self.model.size(chunk).map_or(64, u64::from);
        let at = self.random.below(size + 1);
        let length = self.random.below(size - at + 1);
        match self.random.below(24) {
            0 => (self.random.number() as u32, length as u32),
            1 => (at as u32, self.random.number() as u32),
            2 => (at as u32, (size - at + 1) as u32),
            3 => (at as u32, (size - at) as u32),
            _ => (at as u32, length as u32),
        }
    }

    fn expect<T: PartialEq + Debug>(
        &mut self,
        call: &str,
        told: Result<T, Error>,
        wanted: Result<T, Error>,
    ) {
        assert!(
            told == wanted,
            "{call}: {told:?}, not {wanted:?}, {}",
            self.place_of_trial()
        );
        let answer = match told {
            Ok(_) => format!("{call} done"),
            Err(why) => format!("{call} {why:?}"),
        };
        *self.tally.entry(answer).or_default() += 1;
    }

    /// The answer of a call that isn't refused.
    fn answer<T>(&self, call: &str, told: Result<T, Error>) -> T {
        told.unwrap_or_else(|why| panic!("{call}: {why}, {}", self.place_of_trial()))
    }

    fn place_of_trial(&self) -> String {
        format!("seed {}, call {}", self.seed, self.number)
    }

    /// Compares all chunks and their bytes, and how many logs are kept.
    fn compare(&self, object: &Object, model: &Model) {
        let place = self.place_of_trial();
        assert_eq!(object.logs(), model.logs(), "logs, {place}");
        let live = model.live();
        assert!(object.chunks().eq(live.keys().copied()), "chunks, {place}");
        for (&chunk, wanted) in live {
            assert_eq!(
                object.size(chunk),
                Ok(wanted.len() as u32),
                "size of {chunk}, {place}"
            );
            let mut bytes = vec![0; wanted.len()];
            assert_eq!(
                object.read(chunk, 0, &mut bytes),
                Ok(()),
                "read of {chunk}, {place}"
            );
            assert!(&bytes == wanted, "bytes of {chunk}, {place}");
        }
    }
}
