//! The ledger of a committing peer, modelled on Hyperledger Fabric's: it takes blocks, and decides the flag of each
//! transaction and what the state is. The library is proved; this crate makes its calls safe.
//!
//! ```
//! use fabcommit::{Error, Ledger};
//!
//! # fn main() -> Result<(), Error> {
//! let mut ledger = Ledger::open(b"channel ch\nchaincode cc 'Org1.peer'\n", b"")?;
//! assert_eq!(ledger.definition(b"cc")?.as_deref(), Some("'Org1.peer'"));
//! assert_eq!(ledger.submit(b"no block"), Err(Error::Malformed { fault: Some(1) }));
//! assert_eq!(ledger.height()?, 0);
//! # Ok(())
//! # }
//! ```
//!
//! Who checks signatures by other means than the ledger's keys lists them by [`Listing`], answers each, and calls
//! [`Ledger::submit_by`].
#![warn(missing_docs)]

mod calls;
mod error;
mod explaining;
mod handle;
mod ledger;
mod listing;
mod pool;
mod reason;
mod records;
mod rows;

pub use error::Error;
pub use ledger::{versions, Ledger};
pub use listing::{Listing, Request};
pub use reason::{Cause, Lack, Principal, Range, Reason, TextFault};
pub use records::{Flag, Identity, Receipt, Role, Row, Use, Version, Versions, Write};
pub use rows::{History, Rows};
