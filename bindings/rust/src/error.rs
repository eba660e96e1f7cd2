use std::fmt;

/// Why a call did not do what it says. Each variant is the status of that name in the header, but [`File`](Error::File), which stands for
/// the `DYM_FILE` of `dym_load`, and [`Twice`](Error::Twice) and [`NoValue`](Error::NoValue), which are this crate's own. A later version may have more. `DYM_STATE` is
/// [`Open`](Error::Open), of a [`Process`](crate::Process) alone: an [`Object`](crate::Object) is open.
///
/// The variants up to [`NoLog`](Error::NoLog) are refusals. A refused call changes nothing of the object but the count of its
/// commands, on which only [`Spent`](Error::Spent) depends. A call that returns another variant changes nothing of it at all.
///
/// If more than one would be right, [`Bad`](Error::Bad) comes first, then [`Spent`](Error::Spent), then the refusals in the order
/// in which the call names them; [`Memory`](Error::Memory) comes only if none of these does, but for
/// [`Object::save`](crate::Object::save) and [`Process::commit`](crate::Process::commit).
/// [`Object::chunk_mut`](crate::Object::chunk_mut) says [`Dead`](Error::Dead) before `Spent`.
#[derive(Clone, Copy, Debug, PartialEq, Eq, Hash)]
#[non_exhaustive]
pub enum Error {
    /// No class has chunks of that length; the greatest is 65,536 bytes.
    TooLarge,
    /// The heap would hold more segments than its quota.
    Quota,
    /// No chunk with this handle is live.
    Dead,
    /// The bytes that were named pass the end of the chunk.
    Range,
    /// The newest log has this time or a later one, and a new one must come after it.
    NotAfter,
    /// 256 logs are kept, the most that an object keeps.
    LogsFull,
    /// No log is at or before the time, before it, or at the place that was asked for.
    NoLog,
    /// Memory ran out.
    Memory,
    /// An argument was bad: the quota of [`Object::open`](crate::Object::open), the name of
    /// [`Object::save`](crate::Object::save), or the quota or the number of [`Process::open`](crate::Process::open).
    Bad,
    /// The object has run 2^60 commands, the most that it may.
    Spent,
    /// A chunk was named twice where several are lent at once.
    Twice,
    /// The bytes of the chunk are no value of the type: of a `bool`, or of an enum that [`pod!`](crate::pod) declares.
    NoValue,
    /// The event of a message is before the last bound of its process, or a bound before an earlier one.
    Committed,
    /// What is sent isn't later than the event that sends it.
    NotLater,
    /// What is sent is for no process, or a message for another one.
    NoProcess,
    /// Before the bound an event is still to be run, or an anti-message waits for one.
    Unsettled,
    /// The logs of a process's state aren't those that the process took.
    Astray,
    /// An event whose model answered an error is still handed out. `DYM_STATE` of a process.
    Open,
    /// The bytes are no checkpoint file.
    File {
        /// The first part that fails: 0 for the header, k for record k, and one more than there are records for what follows them.
        part: u32,
    },
}

/// `dym_status`.
pub(crate) type Status = u32;

pub(crate) const FILE: Status = 12;
pub(crate) const NONE: Status = 17;

/// What a status says.
pub(crate) fn done(status: Status) -> Result<(), Error> {
    Err(match status {
        0 => return Ok(()),
        1 => Error::TooLarge,
        2 => Error::Quota,
        3 => Error::Dead,
        4 => Error::Range,
        5 => Error::NotAfter,
        6 => Error::LogsFull,
        7 => Error::NoLog,
        8 => Error::Memory,
        9 => Error::Bad,
        10 => Error::Spent,
        11 => Error::Open,
        13 => Error::Committed,
        14 => Error::NotLater,
        15 => Error::NoProcess,
        16 => Error::Unsettled,
        18 => Error::Astray,
        _ => unreachable!("no call on an open object answers the status {status}"),
    })
}

impl fmt::Display for Error {
    fn fmt(&self, f: &mut fmt::Formatter<'_>) -> fmt::Result {
        f.write_str(match self {
            Error::TooLarge => "the length is above 65,536 bytes",
            Error::Quota => "the heap would hold more segments than its quota",
            Error::Dead => "no chunk with this handle is live",
            Error::Range => "the bytes pass the end of the chunk",
            Error::NotAfter => "the newest log has this time or a later one",
            Error::LogsFull => "256 logs are kept, the most that an object keeps",
            Error::NoLog => "no log is at such a time or place",
            Error::Memory => "memory ran out",
            Error::Bad => "the quota, the name or the number of the process is bad",
            Error::Spent => "the object has run 2^60 commands, the most that it may",
            Error::Twice => "a chunk was named twice",
            Error::NoValue => "the bytes of the chunk are no value of the type",
            Error::Committed => "the time is before the last bound",
            Error::NotLater => "what is sent isn't later than what sends it",
            Error::NoProcess => "it is for no process, or for another one",
            Error::Unsettled => "before the bound an event is still to be run, or waited for",
            Error::Astray => "the logs aren't those of the process",
            Error::Open => "an event is still handed out",
            Error::File { part } => {
                return write!(f, "the bytes are no checkpoint file: part {part} fails")
            }
        })
    }
}

impl std::error::Error for Error {}

#[cfg(test)]
mod tests {
    use super::{done, FILE};
    use std::fs;
    use std::io::{stderr, Write};

    /// The name and the number of the status that a line declares.
    fn status_of(line: &str) -> Option<(&str, u32)> {
        let (name, value) = line.trim().strip_prefix("DYM_")?.split_once(" = ")?;
        let number = value.split_whitespace().next()?;
        Some((name, number.trim_end_matches(',').parse().ok()?))
    }

    /// A name as Rust spells it.
    fn spelled(name: &str) -> String {
        let words = name.split('_');
        words
            .map(|word| word[..1].to_string() + &word[1..].to_lowercase())
            .collect()
    }

    #[test]
    fn each_status_of_the_header_is_the_error_of_its_name() {
        let header = concat!(env!("CARGO_MANIFEST_DIR"), "/../../include/dymelor.h");
        let header = match fs::read_to_string(header) {
            Ok(header) => header,
            // What `println!` writes isn't shown of a test that passes.
            Err(why) => {
                return writeln!(stderr(), "dymelor.h: {why}; nothing was compared")
                    .expect("there is a standard error")
            }
        };
        let lines = header
            .lines()
            .skip_while(|line| !line.contains("typedef uint32_t dym_status"));
        let statuses: Vec<_> = lines
            .take_while(|line| *line != "};")
            .filter_map(status_of)
            .collect();
        assert_eq!(statuses.len(), 13);
        assert_eq!(done(statuses[0].1), Ok(()));
        for (name, status) in &statuses[1..11] {
            assert_eq!(
                format!("{:?}", done(*status)),
                format!("Err({})", spelled(name))
            );
        }
        assert_eq!(statuses[11..], [("STATE", 11), ("FILE", FILE)]);
    }
}
