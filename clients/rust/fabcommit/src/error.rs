//! What a call is refused for.
use fabcommit_sys as sys;
use std::fmt::{Display, Formatter, Result};

/// Why a call was refused. It changed nothing.
#[derive(Clone, Copy, Debug, PartialEq, Eq)]
#[non_exhaustive]
pub enum Error {
    /// The bytes spell no block.
    Malformed {
        /// The number of the first fault of the bytes, 1 to 6. [`crate::Listing`] doesn't tell it.
        fault: Option<u64>,
    },
    /// The block's number isn't the height.
    WrongNumber {
        /// The height.
        wanted: u64,
        /// The block's number.
        got: u64,
    },
    /// The block's previous hash isn't the last header hash.
    WrongPrevious,
    /// The block's data hash isn't that of its transactions.
    WrongDataHash,
    /// A block of version 1 comes after one of version 2.
    OldVersion,
    /// The library was refused an allocation.
    OutOfMemory,
    /// A text isn't UTF-8.
    NoText,
    /// The text is no channel's.
    NoChannel,
    /// The text is no key book.
    NoKeys,
    /// A namespace or chaincode is no name, a key no key, or an id no id.
    NoName,
    /// Another [`crate::Ledger`] shares the ledger, which takes no block until that one is dropped.
    Shared,
    /// A code that this version of the interface doesn't give here.
    Other(u32),
}

impl Error {
    pub(crate) fn of(code: u32, number: u64, got: u64) -> Error {
        match code {
            sys::FABCOMMIT_MALFORMED => Error::Malformed { fault: (got != 0).then_some(got) },
            sys::FABCOMMIT_WRONG_NUMBER => Error::WrongNumber { wanted: number, got },
            sys::FABCOMMIT_WRONG_PREVIOUS => Error::WrongPrevious,
            sys::FABCOMMIT_WRONG_DATA_HASH => Error::WrongDataHash,
            sys::FABCOMMIT_OLD_VERSION => Error::OldVersion,
            sys::FABCOMMIT_MEMORY => Error::OutOfMemory,
            sys::FABCOMMIT_NO_TEXT => Error::NoText,
            sys::FABCOMMIT_NO_CHANNEL => Error::NoChannel,
            sys::FABCOMMIT_NO_KEYS => Error::NoKeys,
            sys::FABCOMMIT_NO_NAME => Error::NoName,
            sys::FABCOMMIT_SHARED => Error::Shared,
            other => Error::Other(other),
        }
    }

    /// The code, as the header numbers it.
    pub fn code(&self) -> u32 {
        match self {
            Error::Malformed { .. } => sys::FABCOMMIT_MALFORMED,
            Error::WrongNumber { .. } => sys::FABCOMMIT_WRONG_NUMBER,
            Error::WrongPrevious => sys::FABCOMMIT_WRONG_PREVIOUS,
            Error::WrongDataHash => sys::FABCOMMIT_WRONG_DATA_HASH,
            Error::OldVersion => sys::FABCOMMIT_OLD_VERSION,
            Error::OutOfMemory => sys::FABCOMMIT_MEMORY,
            Error::NoText => sys::FABCOMMIT_NO_TEXT,
            Error::NoChannel => sys::FABCOMMIT_NO_CHANNEL,
            Error::NoKeys => sys::FABCOMMIT_NO_KEYS,
            Error::NoName => sys::FABCOMMIT_NO_NAME,
            Error::Shared => sys::FABCOMMIT_SHARED,
            Error::Other(code) => *code,
        }
    }
}

impl Display for Error {
    fn fmt(&self, f: &mut Formatter) -> Result {
        match self {
            Error::Malformed { fault: Some(fault) } => write!(f, "the bytes spell no block: fault {fault}"),
            Error::Malformed { fault: None } => f.write_str("the bytes spell no block"),
            Error::WrongNumber { wanted, got } => write!(f, "the block's number is {got} instead of {wanted}"),
            Error::WrongPrevious => f.write_str("the block's previous hash isn't the last header hash"),
            Error::WrongDataHash => f.write_str("the block's data hash isn't that of its transactions"),
            Error::OldVersion => f.write_str("a block of version 1 comes after one of version 2"),
            Error::OutOfMemory => f.write_str("the library was refused an allocation"),
            Error::NoText => f.write_str("a text isn't UTF-8"),
            Error::NoChannel => f.write_str("the text is no channel's"),
            Error::NoKeys => f.write_str("the text is no key book"),
            Error::NoName => f.write_str("a namespace or chaincode is no name, a key no key, or an id no id"),
            Error::Shared => f.write_str("the ledger takes no block while another handle shares it"),
            Error::Other(code) => write!(f, "the library answered with code {code}"),
        }
    }
}

impl std::error::Error for Error {}
