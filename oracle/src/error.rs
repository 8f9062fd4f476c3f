//! The errors that the five files name. The original's `error.rs` was not to be had; no comparison reads a message.

use std::fmt;

/// Why a call was refused.
#[derive(Debug)]
pub enum Error {
    /// A configuration that fails validation.
    Configuration(String),
    /// A result that cannot be computed.
    Processing(String),
}

/// The original's `Result`.
pub type Result<T> = std::result::Result<T, Error>;

impl fmt::Display for Error {
    fn fmt(&self, f: &mut fmt::Formatter<'_>) -> fmt::Result {
        match self {
            Self::Configuration(why) | Self::Processing(why) => f.write_str(why),
        }
    }
}

impl std::error::Error for Error {}
