//! What a rollback costs a game with 200 KiB of state: each frame is run on a guess, found wrong eight frames later, undone and run again. Beside
//! it the same game keeps a whole copy of its state for each frame. Both must end in the same state.
//!
//!     cargo run --release --example rollback_cost

use dymelor::{pod, Chunk, Error, LogKind, Object, Time, Version};
use std::ops::RangeInclusive;
use std::time::{Duration, Instant};

const THINGS: usize = 512;
const CHANGED: usize = 30;
const BACK: u64 = 8;
const FRAMES: u64 = 2_000;

pod! {
    /// One thing of the game: 400 bytes.
    struct Thing {
        x: i32,
        y: i32,
        ticks: [u64; 49],
    }
}

impl Thing {
    fn new(k: usize) -> Thing {
        Thing {
            x: k as i32,
            y: 0,
            ticks: [0; 49],
        }
    }

    fn step(&mut self, frame: u64, input: u64) {
        self.x += (input % 7) as i32 - 3;
        self.y += (input % 5) as i32 - 2;
        self.ticks[(frame % 49) as usize] += input;
    }
}

/// The things that a frame changes.
fn changed(frame: u64) -> impl Iterator<Item = usize> {
    (0..CHANGED).map(move |k| (frame as usize * 97 + k * 17) % THINGS)
}

/// The input of a frame, as it was guessed or as it came.
fn input(frame: u64, is_guess: bool) -> u64 {
    frame.wrapping_mul(0x9E37_79B9_7F4A_7C15) >> 60 | u64::from(is_guess) << 4
}

/// A game that can go back.
trait Game {
    /// Runs a frame and keeps the state after it.
    fn run(&mut self, frame: u64, input: u64) -> Result<(), Error>;

    /// Goes back to the state after a frame.
    fn go_back(&mut self, frame: u64) -> Result<(), Error>;
}

/// The state in an object of the library.
struct Logged {
    object: Object,
    things: Vec<Chunk<Thing>>,
}

impl Logged {
    fn open() -> Result<Logged, Error> {
        let mut object = Object::open(8, Version::Two)?;
        let things = (0..THINGS).map(|k| object.make(Thing::new(k)));
        let things = things.collect::<Result<_, Error>>()?;
        object.log(LogKind::Full, Time(0))?;
        Ok(Logged { object, things })
    }
}

impl Game for Logged {
    fn run(&mut self, frame: u64, input: u64) -> Result<(), Error> {
        for k in changed(frame) {
            self.object.get_mut(self.things[k])?.step(frame, input);
        }
        self.object.log(LogKind::Full, Time(frame))?;
        self.object.prune_before(Time(frame.saturating_sub(BACK)))?;
        Ok(())
    }

    fn go_back(&mut self, frame: u64) -> Result<(), Error> {
        self.object.restore(Time(frame)).map(|_| ())
    }
}

/// The state in one vector, and a copy of it for each of the last frames.
struct Copied {
    things: Vec<Thing>,
    copies: Vec<Vec<Thing>>,
}

impl Copied {
    fn open() -> Copied {
        let things: Vec<_> = (0..THINGS).map(Thing::new).collect();
        let copies = vec![things.clone(); BACK as usize + 1];
        Copied { things, copies }
    }
}

impl Game for Copied {
    fn run(&mut self, frame: u64, input: u64) -> Result<(), Error> {
        for k in changed(frame) {
            self.things[k].step(frame, input);
        }
        let at = frame as usize % self.copies.len();
        self.copies[at].copy_from_slice(&self.things);
        Ok(())
    }

    fn go_back(&mut self, frame: u64) -> Result<(), Error> {
        let at = frame as usize % self.copies.len();
        self.things.copy_from_slice(&self.copies[at]);
        Ok(())
    }
}

/// Plays the game, and measures the rollbacks alone: to go back eight frames and run them again.
fn play(game: &mut impl Game, frames: RangeInclusive<u64>) -> Result<Duration, Error> {
    let mut took = Duration::ZERO;
    for frame in frames {
        game.run(frame, input(frame, true))?;
        if frame % BACK == 0 {
            let began = Instant::now();
            game.go_back(frame - BACK)?;
            for again in frame - BACK + 1..=frame {
                game.run(again, input(again, false))?;
            }
            took += began.elapsed();
        }
    }
    Ok(took / (FRAMES / BACK) as u32)
}

fn main() -> Result<(), Error> {
    let mut logged = Logged::open()?;
    let mut copied = Copied::open();
    for round in 0..3 {
        let frames = round * FRAMES + 1..=(round + 1) * FRAMES;
        let library = play(&mut logged, frames.clone())?;
        let copies = play(&mut copied, frames)?;
        println!("a rollback of {BACK} frames takes {library:?} by the library, {copies:?} by whole copies");
    }
    for (k, thing) in logged.things.iter().enumerate() {
        let (found, right) = (logged.object.get(*thing)?, &copied.things[k]);
        assert_eq!(
            (found.x, found.y, found.ticks),
            (right.x, right.y, right.ticks)
        );
    }
    Ok(())
}
