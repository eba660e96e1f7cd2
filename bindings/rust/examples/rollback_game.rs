//! A game of two players over a network, by rollback. Each frame runs at once, with the far player's input guessed; where the input that comes
//! some frames later is another one, the game goes back to before its frame, and runs again up to now. In the end it is as if every input had
//! been there in time, which the last line compares.
//!
//!     cargo run --example rollback_game

use dymelor::{pod, Chunk, Error, LogKind, Object, Time, Version};

const FRAMES: u64 = 300;
const LATEST: u64 = 7;
const SIDE: usize = 32;

pod! {
    /// Where a player is, and how many cells it has painted.
    #[derive(Debug, Default, PartialEq)]
    struct Player {
        x: u32,
        y: u32,
        painted: u64,
    }

    /// What both see.
    #[derive(Debug, Default, PartialEq)]
    struct Game {
        frame: u64,
        players: [Player; 2],
    }

    /// Whose each cell is: 0 nobody's, else the player's number from 1 on.
    #[derive(PartialEq)]
    struct Board {
        cells: [[u8; SIDE]; SIDE],
    }
}

/// One frame: each player makes a step, and paints the cell where it stands.
fn step(game: &mut Game, board: &mut Board, inputs: [u8; 2]) {
    game.frame += 1;
    for (k, (player, input)) in game.players.iter_mut().zip(inputs).enumerate() {
        let side = SIDE as u32;
        match input {
            0 => player.x = (player.x + 1) % side,
            1 => player.x = (player.x + side - 1) % side,
            2 => player.y = (player.y + 1) % side,
            _ => player.y = (player.y + side - 1) % side,
        }
        let cell = &mut board.cells[player.y as usize][player.x as usize];
        let own = k as u8 + 1;
        if *cell != own {
            *cell = own;
            player.painted += 1;
        }
    }
}

/// What a player does in a frame: it keeps its way for some frames.
fn input(player: u64, frame: u64) -> u8 {
    let turn = frame / (5 + 3 * player) + player;
    (turn.wrapping_mul(0x9E37_79B9_7F4A_7C15) >> 62) as u8
}

/// In which frame the far player's input is here.
fn arrives(frame: u64) -> u64 {
    frame + 1 + frame * 5 % LATEST
}

/// The game on this side: the object with its state, and what is known of the far player.
struct Side {
    object: Object,
    game: Chunk<Game>,
    board: Chunk<Board>,
    known: Vec<Option<u8>>,
    used: Vec<u8>,
    again: u64,
}

impl Side {
    fn open() -> Result<Side, Error> {
        let mut object = Object::open(4, Version::Two)?;
        let game = object.make(Game::default())?;
        let board = object.make(Board {
            cells: [[0; SIDE]; SIDE],
        })?;
        object.log(LogKind::Full, Time(0))?; // before the first frame
        let known = vec![None; FRAMES as usize + 1];
        let used = vec![0; FRAMES as usize + 1];
        Ok(Side {
            object,
            game,
            board,
            known,
            used,
            again: 0,
        })
    }

    /// Runs a frame, and logs it at its number.
    fn run(&mut self, frame: u64) -> Result<(), Error> {
        let far = self.guess(frame);
        self.used[frame as usize] = far;
        let (game, board) = self.object.pair_mut(self.game, self.board)?; // both are touched before they are written
        step(game, board, [input(0, frame), far]);
        self.object.log(LogKind::Incremental, Time(frame))?;
        Ok(())
    }

    /// The far player's input, or the last one before it that is known.
    fn guess(&self, frame: u64) -> u8 {
        let known = self.known[..=frame as usize].iter();
        known.rev().find_map(|it| *it).unwrap_or(0)
    }

    /// The inputs that arrive now; the first that was guessed wrong is where the game goes back to.
    fn receive(&mut self, now: u64) -> Result<(), Error> {
        let mut wrong = None;
        for frame in (1..now.min(FRAMES + 1)).rev() {
            if arrives(frame) == now {
                let far = input(1, frame);
                self.known[frame as usize] = Some(far);
                if self.used[frame as usize] != far {
                    wrong = Some(frame);
                }
            }
        }
        if let Some(first) = wrong {
            self.object.restore_before(Time(first))?; // the state after the frame before it
            for frame in first..now.min(FRAMES + 1) {
                self.run(frame)?;
                self.again += 1;
            }
        }
        Ok(())
    }

    /// No input can come any more for a frame so long ago: the logs before it go.
    fn forget(&mut self, now: u64) -> Result<u32, Error> {
        self.object.prune_before(Time(now.saturating_sub(LATEST)))
    }
}

fn main() -> Result<(), Error> {
    let mut side = Side::open()?;
    for now in 1..=FRAMES + LATEST + 1 {
        side.receive(now)?;
        if now <= FRAMES {
            side.run(now)?;
        }
        side.forget(now)?;
    }

    let mut game = Game::default();
    let mut board = Board {
        cells: [[0; SIDE]; SIDE],
    };
    for frame in 1..=FRAMES {
        step(&mut game, &mut board, [input(0, frame), input(1, frame)]);
    }
    assert_eq!(side.object.get(side.game)?, &game);
    assert!(side.object.get(side.board)? == &board);
    assert!(side.again > 0);
    println!(
        "{FRAMES} frames, {} run again after a wrong guess: the game ends as in order, with {} and {} cells painted",
        side.again, game.players[0].painted, game.players[1].painted
    );
    Ok(())
}
