//! A ledger, and what it is asked.
use crate::calls::call;
use crate::explaining::Record;
use crate::handle::Handle;
use crate::{Error, Flag, History, Listing, Reason, Receipt, Row, Rows, Use, Version, Versions};
use fabcommit_sys as sys;

/// The versions of the library.
pub fn versions() -> Versions {
    let mut told = sys::fabcommit_version_numbers::default();
    call!(fabcommit_versions, to &mut told);
    Versions { interface: told.interface, first_block: told.first_block, last_block: told.last_block }
}

/// The ledger of a channel, which is freed as it is dropped.
///
/// It may go from thread to thread, but takes one call at a time: each call takes `&mut self`, also one that only asks,
/// since the library writes the handle in every call. Threads have it in a `Mutex`, or each has one of its own by
/// [`Ledger::share`].
///
/// ```
/// fn may_be_sent<T: Send>() {}
/// may_be_sent::<fabcommit::Ledger>();
/// ```
///
/// ```compile_fail
/// fn may_be_asked_side_by_side<T: Sync>() {}
/// may_be_asked_side_by_side::<fabcommit::Ledger>();
/// ```
pub struct Ledger {
    handle: Handle,
}

impl Ledger {
    /// The ledger of height 0 of a channel's text. A text of keys is needed only if the library checks signatures.
    ///
    /// It panics if the library that is linked has another interface than this crate.
    pub fn open(channel: &[u8], keys: &[u8]) -> Result<Ledger, Error> {
        assert_eq!(versions().interface, sys::FABCOMMIT_INTERFACE, "the interface of the library, and of this crate");
        Ok(Ledger { handle: Handle::open(channel, keys)? })
    }

    /// One more `Ledger` of the same ledger and keys, for another thread. Both may be queried at the same time.
    ///
    /// While there is more than one of them a block is refused with [`Error::Shared`]: drop all but one, submit, and
    /// share again.
    ///
    /// ```
    /// use fabcommit::{Error, Ledger};
    ///
    /// # fn main() -> Result<(), Error> {
    /// let mut ledger = Ledger::open(b"channel ch\n", b"")?;
    /// let mut share = ledger.share()?;
    /// assert_eq!(ledger.submit(b"no block"), Err(Error::Shared));
    /// assert_eq!(std::thread::spawn(move || share.height()).join().unwrap(), Ok(0));
    /// // the thread has dropped its own
    /// assert_eq!(ledger.submit(b"no block"), Err(Error::Malformed { fault: Some(1) }));
    /// # Ok(())
    /// # }
    /// ```
    pub fn share(&mut self) -> Result<Ledger, Error> {
        Ok(Ledger { handle: self.handle.share()? })
    }

    /// Hands in the next block, whose signatures are checked by the ledger's keys.
    pub fn submit(&mut self, block: &[u8]) -> Result<Receipt, Error> {
        receipt(|told| call!(fabcommit_submit, to self.handle.raw(), in block, to told))
    }

    /// Hands in the next block, whose signatures were checked.
    pub fn submit_by(&mut self, listing: &Listing) -> Result<Receipt, Error> {
        let Listing { block, pool, verdicts } = listing;
        receipt(|told| call!(fabcommit_submit_by, to self.handle.raw(), in block, in pool, in verdicts, to told))
    }

    /// Tells why each transaction of the next block would have its flag, by the ledger's keys, and commits nothing.
    pub fn explain(&mut self, block: &[u8]) -> Result<Vec<Reason>, Error> {
        let handle = self.handle.raw();
        reasons(
            |pool, reasons, identities, sizes| call!(fabcommit_explain, to handle, in block, out pool, out reasons, out identities, to sizes),
        )
    }

    /// The same of a block whose signatures were checked.
    pub fn explain_by(&mut self, listing: &Listing) -> Result<Vec<Reason>, Error> {
        let (handle, Listing { block, pool: said, verdicts }) = (self.handle.raw(), listing);
        reasons(|pool, reasons, identities, sizes| {
            call!(
                fabcommit_explain_by,
                to handle, in block, in said, in verdicts, out pool, out reasons, out identities, to sizes
            )
        })
    }

    /// The number of the next block.
    pub fn height(&mut self) -> Result<u64, Error> {
        let mut height = 0;
        done(call!(fabcommit_height, to self.handle.raw(), to &mut height))?;
        Ok(height)
    }

    /// The receipt of an accepted block.
    pub fn block(&mut self, number: u64) -> Result<Option<Receipt>, Error> {
        if_there(receipt(|told| call!(fabcommit_block, to self.handle.raw(), to number, to told)))
    }

    /// The flags of an accepted block, one for each transaction.
    pub fn flags(&mut self, number: u64) -> Result<Option<Vec<Flag>>, Error> {
        let told = octets(|flags, len| call!(fabcommit_flags, to self.handle.raw(), to number, out flags, to len));
        Ok(if_there(told)?.map(|flags| flags.into_iter().map(Flag::of).collect()))
    }

    /// The row of a key.
    pub fn get(&mut self, namespace: &[u8], key: &[u8]) -> Result<Option<Row>, Error> {
        let mut row = sys::fabcommit_row::default();
        let told = octets(|value, len| {
            let code = call!(fabcommit_get, to self.handle.raw(), in namespace, in key, to &mut row, out value);
            *len = row.len;
            code
        });
        let version = Version { block: row.block, tx: row.tx };
        Ok(if_there(told)?.map(|value| Row { key: key.to_vec(), value, version }))
    }

    /// The rows of a namespace from a start to before an end, which is no bound if it is empty, in order of their keys.
    pub fn scan(&mut self, namespace: &[u8], start: &[u8], end: &[u8]) -> Rows<'_> {
        Rows::new(&mut self.handle, namespace, start, end)
    }

    /// The value writes and deletes of a key, the newest first.
    pub fn history(&mut self, namespace: &[u8], key: &[u8]) -> Result<History, Error> {
        History::of(&mut self.handle, namespace, key)
    }

    /// The canonical text of the policy that a key has of its own.
    pub fn key_policy(&mut self, namespace: &[u8], key: &[u8]) -> Result<Option<String>, Error> {
        let handle = self.handle.raw();
        text(octets(|text, len| call!(fabcommit_key_policy, to handle, in namespace, in key, out text, to len)))
    }

    /// The canonical text of a chaincode's policy.
    pub fn definition(&mut self, chaincode: &[u8]) -> Result<Option<String>, Error> {
        text(octets(|text, len| call!(fabcommit_definition, to self.handle.raw(), in chaincode, out text, to len)))
    }

    /// Where an id of 64 bytes was used first.
    pub fn first_use(&mut self, id: &[u8]) -> Result<Option<Use>, Error> {
        let mut first = sys::fabcommit_use::default();
        let told = done(call!(fabcommit_first_use, to self.handle.raw(), in id, to &mut first));
        let version = Version { block: first.block, tx: first.tx };
        Ok(if_there(told)?.map(|()| Use { version, flag: Flag::of(first.flag) }))
    }
}

fn done(code: u32) -> Result<(), Error> {
    if code == sys::FABCOMMIT_OK {
        Ok(())
    } else {
        Err(Error::of(code, 0, 0))
    }
}

/// Nothing in place of the code that there is nothing.
fn if_there<T>(told: Result<T, Error>) -> Result<Option<T>, Error> {
    match told {
        Err(Error::Other(sys::FABCOMMIT_NONE)) => Ok(None),
        told => told.map(Some),
    }
}

fn receipt(call: impl FnOnce(&mut sys::fabcommit_receipt) -> u32) -> Result<Receipt, Error> {
    let mut told = sys::fabcommit_receipt::default();
    match call(&mut told) {
        sys::FABCOMMIT_OK => Ok(Receipt {
            number: told.number,
            transactions: told.flags,
            header_hash: told.header_hash,
            commit_hash: told.commit_hash,
        }),
        code => Err(Error::of(code, told.number, told.got)),
    }
}

/// What a call writes into a buffer, whose length it tells. The buffer is made as long.
fn octets(mut call: impl FnMut(&mut [u8], &mut usize) -> u32) -> Result<Vec<u8>, Error> {
    let (mut buffer, mut len) = (vec![0; 64], 0);
    loop {
        match call(&mut buffer, &mut len) {
            sys::FABCOMMIT_SMALL => buffer.resize(len, 0),
            code => {
                done(code)?;
                buffer.truncate(len);
                return Ok(buffer);
            }
        }
    }
}

/// A policy's text, which is UTF-8.
fn text(told: Result<Vec<u8>, Error>) -> Result<Option<String>, Error> {
    Ok(if_there(told)?.map(|octets| String::from_utf8_lossy(&octets).into_owned()))
}

fn reasons(
    mut call: impl FnMut(
        &mut [u8],
        &mut [sys::fabcommit_reason],
        &mut [sys::fabcommit_identity],
        &mut sys::fabcommit_reason_sizes,
    ) -> u32,
) -> Result<Vec<Reason>, Error> {
    let (mut pool, mut reasons, mut identities) = (vec![], vec![], vec![]);
    let mut sizes = sys::fabcommit_reason_sizes::default();
    loop {
        match call(&mut pool, &mut reasons, &mut identities, &mut sizes) {
            sys::FABCOMMIT_OK => break,
            sys::FABCOMMIT_SMALL => {
                pool.resize(sizes.pool, 0);
                reasons.resize(sizes.reasons, Default::default());
                identities.resize(sizes.identities, Default::default());
            }
            code => return Err(Error::of(code, sizes.number, sizes.got)),
        }
    }
    Ok(reasons.iter().map(|record| Record { record, identities: &identities, pool: &pool }.reason()).collect())
}
