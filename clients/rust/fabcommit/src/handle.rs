//! A handle of the library, open from its making on, and closed as it is dropped. Several may hold one ledger.
use crate::calls::call;
use crate::Error;
use fabcommit_sys as sys;
use std::ptr::null_mut;

pub(crate) struct Handle(sys::fabcommit_handle);

// SAFETY: a handle with all that it holds may go to another thread (`c_handle::a_handle_may_be_sent`). It isn't `Sync`:
// each call takes out of the handle what it holds and puts it back, also one that only asks. Handles that share a
// ledger only read it, and count themselves by an atomic word.
unsafe impl Send for Handle {}

impl Handle {
    /// The handle that a call opens.
    fn opened(call: impl FnOnce(*mut sys::fabcommit_handle) -> u32) -> Result<Handle, Error> {
        let mut handle = Handle(sys::fabcommit_handle { at: null_mut(), is_open: false });
        match call(handle.raw()) {
            sys::FABCOMMIT_OK => Ok(handle),
            code => Err(Error::of(code, 0, 0)),
        }
    }

    pub(crate) fn open(channel: &[u8], keys: &[u8]) -> Result<Handle, Error> {
        Handle::opened(|handle| call!(fabcommit_open, to handle, in channel, in keys))
    }

    /// One more handle of the same ledger.
    pub(crate) fn share(&mut self) -> Result<Handle, Error> {
        Handle::opened(|other| call!(fabcommit_share, to self.raw(), to other))
    }

    /// For one call.
    pub(crate) fn raw(&mut self) -> *mut sys::fabcommit_handle {
        &mut self.0
    }
}

impl Drop for Handle {
    fn drop(&mut self) {
        call!(fabcommit_close, to self.raw())
    }
}
