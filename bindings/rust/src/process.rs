use crate::error::Error;
use crate::ffi::{self, OpenProcess};
use crate::object::Object;
use crate::time::Time;
use std::fmt;

/// What a process is to do at a time.
///
/// Each process runs its events in the order of time, priority, sender, serial, and then the other fields.
#[derive(Clone, Copy, Debug, PartialEq, Eq, PartialOrd, Ord, Hash)]
pub struct Event {
    /// When it is.
    pub time: Time,
    /// Which of several events at one time is first: the least. It is the model's to choose.
    pub priority: u64,
    /// The process that sent it.
    pub sender: u32,
    /// How many events the sender had sent before it, of those that weren't called back.
    pub serial: u64,
    /// The process that runs it.
    pub receiver: u32,
    /// What it is, in the model's own numbers.
    pub kind: u64,
    /// What it carries, in the model's own numbers.
    pub data: [u64; 4],
}

/// An event that a model sends. Its sender and its serial are the process's to fill in.
#[derive(Clone, Copy, Debug, Default, PartialEq, Eq, Hash)]
pub struct Draft {
    /// When the event is: after the one that sends it.
    pub time: Time,
    /// Which of several events at one time is first: the least.
    pub priority: u64,
    /// The process that runs it.
    pub receiver: u32,
    /// What it is.
    pub kind: u64,
    /// What it carries.
    pub data: [u64; 4],
}

/// An event on its way, or an anti-message, which calls such an event back.
#[derive(Clone, Copy, Debug, PartialEq, Eq, Hash)]
pub enum Message {
    /// An event.
    Event(Event),
    /// The word that an event was never sent.
    Anti(Event),
}

impl Message {
    /// The event that is sent or called back.
    pub fn event(&self) -> &Event {
        match self {
            Message::Event(event) | Message::Anti(event) => event,
        }
    }
}

/// What a process is opened with.
#[derive(Clone, Copy, Debug, PartialEq, Eq, Hash)]
pub struct Config {
    /// The number of the process: below that of processes.
    pub number: u32,
    /// How many processes there are in the simulation.
    pub processes: u32,
    /// A log is taken after so many events; 0 counts as 1.
    pub period: u64,
    /// The most segments of 64 KiB that the state may hold, 1 to 1,024.
    pub quota: u32,
}

/// How far a process is.
#[derive(Clone, Copy, Debug, Default, PartialEq, Eq, Hash)]
pub struct Progress {
    /// How many events are run and weren't undone, from the start on, the committed ones among them.
    pub ran: u64,
    /// How many of them are run again before the next one.
    pub replays: u64,
    /// How many of them had been run at the newest log.
    pub logged: u64,
}

/// What a model has of its process while the start or an event is run.
pub struct Site<'a> {
    state: &'a mut Object,
    process: &'a mut OpenProcess,
    number: u32,
}

impl Site<'_> {
    /// The number of the process.
    pub fn number(&self) -> u32 {
        self.number
    }

    /// The state. Its logs are the process's: a model that takes, restores or drops one makes the process answer [`Error::Astray`].
    pub fn state(&mut self) -> &mut Object {
        self.state
    }

    /// Sends an event.
    ///
    /// # Errors
    ///
    /// [`Error::NotLater`] if it isn't later than the event that is run, [`Error::NoProcess`] if there is no such receiver, and [`Error::Memory`].
    pub fn send(&mut self, draft: Draft) -> Result<(), Error> {
        self.process.send(self.state.inside_mut(), &draft.into())
    }
}

/// What processes have for a state, and what an event does to it: a behaviour. What it does and sends depends on nothing but the process's number, the
/// event and the state, so that an event that is run again does what it did. Two closures are a model, too: one for the start and one for events.
///
/// A model that answers an error leaves the event handed out, and the process can only be dropped then.
pub trait Model {
    /// Makes the state of a process, and sends its first events, which may have any time.
    ///
    /// # Errors
    ///
    /// What the model says.
    fn start(&mut self, site: &mut Site<'_>) -> Result<(), Error>;

    /// Runs an event.
    ///
    /// # Errors
    ///
    /// What the model says.
    fn run(&mut self, site: &mut Site<'_>, event: &Event) -> Result<(), Error>;
}

impl<S, R> Model for (S, R)
where
    S: FnMut(&mut Site<'_>) -> Result<(), Error>,
    R: FnMut(&mut Site<'_>, &Event) -> Result<(), Error>,
{
    fn start(&mut self, site: &mut Site<'_>) -> Result<(), Error> {
        (self.0)(site)
    }

    fn run(&mut self, site: &mut Site<'_>, event: &Event) -> Result<(), Error> {
        (self.1)(site, event)
    }
}

/// A logical process of a Time Warp simulator, whose state is an [`Object`]. It keeps the events that it has taken in order, has a [`Model`] run them,
/// logs its state, rolls it back where a straggler or an anti-message comes, and calls back what undone events had sent. It knows no other
/// process, no thread and no transport: messages come in by [`take`](Process::take) and go out by [`outbox`](Process::outbox). It has no save and no load.
///
/// ```
/// use dymelor::{Config, Draft, Error, Event, Message, Process, Site, Time};
///
/// # fn main() -> Result<(), Error> {
/// // Each event adds its kind to a number, and sends another one to the process itself.
/// let start = |site: &mut Site<'_>| {
///     site.state().make(0u64)?;
///     site.send(Draft { time: Time(1), kind: 5, ..Draft::default() })
/// };
/// let run = |site: &mut Site<'_>, event: &Event| {
///     let chunk = site.state().next_chunk(None).ok_or(Error::Dead)?;
///     let mut number = [0; 8];
///     site.state().read(chunk, 0, &mut number)?;
///     let sum = u64::from_le_bytes(number) + event.kind;
///     site.state().write(chunk, 0, &sum.to_le_bytes())?;
///     if event.kind == 1 {
///         return Ok(());
///     }
///     site.send(Draft { time: Time(event.time.0 + 1), kind: event.kind - 1, ..Draft::default() })
/// };
///
/// let mut model = (start, run);
/// let config = Config { number: 0, processes: 1, period: 4, quota: 1 };
/// let mut process = Process::open(config, &mut model)?;
/// loop {
///     for message in process.outbox()? {
///         process.take(&message)?;
///     }
///     if process.run(&mut model)?.is_none() {
///         break;
///     }
/// }
/// assert_eq!(process.commit(Time(100))?.len(), 5);
/// # Ok(())
/// # }
/// ```
#[must_use = "a process is closed when it is dropped"]
pub struct Process {
    // The process is dropped before its state.
    process: OpenProcess,
    state: Object,
    config: Config,
}

impl Process {
    /// Opens a process, and has a model start it.
    ///
    /// # Errors
    ///
    /// [`Error::Bad`] if the number isn't below that of processes, or the quota is 0 or above 1,024; [`Error::Memory`]; and what the model says.
    pub fn open<M: Model>(config: Config, model: &mut M) -> Result<Process, Error> {
        let (process, state) = OpenProcess::open(&config)?;
        let state = Object::of(state);
        let mut opened = Process {
            process,
            state,
            config,
        };
        model.start(&mut opened.site())?;
        opened.process.end(opened.state.inside_mut())?;
        Ok(opened)
    }

    fn site(&mut self) -> Site<'_> {
        Site {
            state: &mut self.state,
            process: &mut self.process,
            number: self.config.number,
        }
    }

    /// The number of the process.
    pub fn number(&self) -> u32 {
        self.config.number
    }

    /// The state, as [`settle`](Process::settle) leaves it: events that were undone may still be in it.
    pub fn state(&self) -> &Object {
        &self.state
    }

    /// Takes a message, and returns how many events were undone. An event goes to its place; an anti-message takes its event away, whichever of the two
    /// comes first.
    ///
    /// # Errors
    ///
    /// [`Error::NoProcess`] if it is for another process, [`Error::Committed`] if its event is before the last bound, and [`Error::Memory`].
    pub fn take(&mut self, message: &Message) -> Result<u64, Error> {
        self.process.take(self.state.inside_mut(), message)
    }

    /// The time of the next event that isn't run yet.
    pub fn next_time(&self) -> Option<Time> {
        self.process.next_time()
    }

    /// Has the model run the next event, after those that are to be run again, and returns it. `None`: there is none, and the state is what all
    /// events that are run made of it.
    ///
    /// # Errors
    ///
    /// [`Error::Memory`], [`Error::Spent`], [`Error::Astray`], [`Error::Open`] after an event whose model answered an error; and what the model says.
    pub fn run<M: Model>(&mut self, model: &mut M) -> Result<Option<Event>, Error> {
        while let Some((event, is_replayed)) = self.process.begin(self.state.inside_mut())? {
            self.run_one(model, &event)?;
            if !is_replayed {
                return Ok(Some(event));
            }
        }
        Ok(None)
    }

    /// Has the model run what is to be run again, and nothing else, and returns the state: it is what all events that are run made of it.
    ///
    /// # Errors
    ///
    /// Those of [`run`](Process::run).
    pub fn settle<M: Model>(&mut self, model: &mut M) -> Result<&Object, Error> {
        while let Some(event) = self.process.replay(self.state.inside_mut())? {
            self.run_one(model, &event)?;
        }
        Ok(&self.state)
    }

    fn run_one<M: Model>(&mut self, model: &mut M, event: &Event) -> Result<(), Error> {
        model.run(&mut self.site(), event)?;
        self.process.end(self.state.inside_mut())
    }

    /// Takes out the messages that are to be delivered.
    ///
    /// # Errors
    ///
    /// [`Error::Memory`]: they stay then.
    pub fn outbox(&mut self) -> Result<Vec<Message>, Error> {
        self.process.outbox()
    }

    /// Commits all events before a bound, and returns them: they are never undone any more, and nothing before the bound comes.
    ///
    /// # Errors
    ///
    /// [`Error::Unsettled`] if an event before the bound is still to be run, [`Error::Committed`] if a later bound was committed, [`Error::Spent`], and
    /// [`Error::Memory`], which comes before the others where memory for the answer is wanting. Nothing is committed then.
    pub fn commit(&mut self, bound: Time) -> Result<Vec<Event>, Error> {
        self.process.commit(self.state.inside_mut(), bound.0)
    }

    /// How far the process is.
    pub fn progress(&self) -> Progress {
        self.process.progress()
    }

    /// From now on a log is taken after so many events; 0 counts as 1.
    pub fn set_period(&mut self, period: u64) {
        self.process.set_period(period);
    }
}

impl fmt::Debug for Process {
    fn fmt(&self, f: &mut fmt::Formatter<'_>) -> fmt::Result {
        f.debug_struct("Process")
            .field("config", &self.config)
            .field("progress", &self.progress())
            .finish_non_exhaustive()
    }
}

impl From<Draft> for ffi::Event {
    fn from(draft: Draft) -> ffi::Event {
        ffi::Event {
            time: draft.time.0,
            priority: draft.priority,
            serial: 0,
            sender: 0,
            receiver: draft.receiver,
            kind: draft.kind,
            data: draft.data,
        }
    }
}

impl From<Event> for ffi::Event {
    fn from(event: Event) -> ffi::Event {
        ffi::Event {
            time: event.time.0,
            priority: event.priority,
            serial: event.serial,
            sender: event.sender,
            receiver: event.receiver,
            kind: event.kind,
            data: event.data,
        }
    }
}

impl From<ffi::Event> for Event {
    fn from(event: ffi::Event) -> Event {
        Event {
            time: Time(event.time),
            priority: event.priority,
            sender: event.sender,
            serial: event.serial,
            receiver: event.receiver,
            kind: event.kind,
            data: event.data,
        }
    }
}

impl From<ffi::Message> for Message {
    fn from(message: ffi::Message) -> Message {
        let event = message.event.into();
        match message.is_anti {
            0 => Message::Event(event),
            _ => Message::Anti(event),
        }
    }
}

impl From<Message> for ffi::Message {
    fn from(message: Message) -> ffi::Message {
        ffi::Message {
            event: (*message.event()).into(),
            is_anti: matches!(message, Message::Anti(_)).into(),
            mark: 0,
        }
    }
}
