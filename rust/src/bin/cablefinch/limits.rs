//! How large a packet may be: as large as for the proved programs where the input is one that they take, else as
//! for the original's client, unless options say otherwise.

use crate::Stop;
use crate::arguments::Arguments;
use crate::words::{MAX_BYTES, MAX_PARTS};
use cablefinch::packet::{DEFAULT_MAX_PART_COUNT, MAX_PART_COUNT};

/// The most bytes that the proved programs take.
pub const SHORT: usize = 65_536;

/// How large a packet may be.
#[derive(Clone, Copy)]
pub struct Limits {
    pub bytes: u64,
    pub parts: u32,
}

/// The limits of the proved programs, for input that they take.
const SHORT_LIMITS: Limits = Limits {
    bytes: SHORT as u64,
    parts: 2_048,
};

/// The limits of the original's client.
const LIMITS: Limits = Limits {
    bytes: 512 << 20,
    parts: DEFAULT_MAX_PART_COUNT,
};

/// What options say of them.
#[derive(Clone, Copy)]
pub struct Given {
    bytes: Option<u64>,
    parts: Option<u32>,
}

impl Given {
    /// Reads the options.
    pub fn of(arguments: &Arguments) -> Result<Self, Stop> {
        Ok(Self {
            bytes: arguments.number(&MAX_BYTES, u64::MAX)?,
            parts: arguments.number(&MAX_PARTS, MAX_PART_COUNT)?,
        })
    }

    /// The limits for input that has more than [`SHORT`] bytes, or that has not.
    pub fn limits(self, long: bool) -> Limits {
        let limits = if long { LIMITS } else { SHORT_LIMITS };
        Limits {
            bytes: self.bytes.unwrap_or(limits.bytes),
            parts: self.parts.unwrap_or(limits.parts),
        }
    }
}
