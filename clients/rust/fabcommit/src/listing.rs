//! The signatures of a block, for a caller that checks them.
use crate::calls::call;
use crate::pool::part;
use crate::{Error, Role};
use fabcommit_sys as sys;

/// A signature, and who is said to have signed what.
#[derive(Clone, Copy, Debug, PartialEq, Eq)]
pub struct Request<'a> {
    /// The organization of the identity that signed.
    pub org: &'a [u8],
    /// Its role.
    pub role: Role,
    /// Its label.
    pub label: &'a [u8],
    /// What is signed.
    pub message: &'a [u8],
    /// The signature.
    pub signature: &'a [u8],
}

/// The signatures that a block may ask about, none of which is accepted at first.
///
/// It needs no ledger, so blocks may be listed and checked before their turn, and side by side.
pub struct Listing<'a> {
    pub(crate) block: &'a [u8],
    pub(crate) pool: Vec<u8>,
    pub(crate) verdicts: Vec<sys::fabcommit_verdict>,
}

impl<'a> Listing<'a> {
    /// Those of a block, also of one that a ledger would refuse.
    pub fn of(block: &'a [u8]) -> Result<Listing<'a>, Error> {
        let (mut pool, mut verdicts, mut sizes) = (vec![], vec![], sys::fabcommit_sizes::default());
        loop {
            match call!(fabcommit_list, in block, out pool, out verdicts, to &mut sizes) {
                sys::FABCOMMIT_OK => return Ok(Listing { block, pool, verdicts }),
                sys::FABCOMMIT_SMALL => {
                    pool.resize(sizes.pool, 0);
                    verdicts.resize(sizes.verdicts, Default::default());
                }
                code => return Err(Error::of(code, 0, 0)),
            }
        }
    }

    /// How many requests there are.
    pub fn len(&self) -> usize {
        self.verdicts.len()
    }

    /// Whether there are none.
    pub fn is_empty(&self) -> bool {
        self.verdicts.is_empty()
    }

    /// The requests in their order.
    pub fn requests(&self) -> impl ExactSizeIterator<Item = Request<'_>> {
        self.verdicts.iter().map(|verdict| asked(&self.pool, verdict))
    }

    /// Says of the request at a place whether its signature is good. It panics unless there is one.
    pub fn answer(&mut self, place: usize, is_good: bool) {
        self.verdicts[place].accepted = is_good;
    }

    /// Has each request answered.
    pub fn check(&mut self, mut is_good: impl FnMut(Request) -> bool) {
        for verdict in &mut self.verdicts {
            verdict.accepted = is_good(asked(&self.pool, verdict));
        }
    }
}

fn asked<'a>(pool: &'a [u8], verdict: &sys::fabcommit_verdict) -> Request<'a> {
    Request {
        org: part(pool, verdict.org),
        role: Role::of(verdict.role),
        label: part(pool, verdict.label),
        message: part(pool, verdict.message),
        signature: part(pool, verdict.signature),
    }
}
