use std::fmt;

/// A simulation time: any number of 64 bits. What one unit of it is, the simulator says.
#[derive(Clone, Copy, Debug, Default, PartialEq, Eq, PartialOrd, Ord, Hash)]
pub struct Time(pub u64);

impl fmt::Display for Time {
    fn fmt(&self, f: &mut fmt::Formatter<'_>) -> fmt::Result {
        self.0.fmt(f)
    }
}

impl From<u64> for Time {
    fn from(number: u64) -> Time {
        Time(number)
    }
}
