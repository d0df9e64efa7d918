//! Rows and past writes, one by one.
use crate::calls::call;
use crate::handle::Handle;
use crate::pool::copied;
use crate::{Error, Row, Version, Write};
use fabcommit_sys as sys;
use std::iter::FusedIterator;
use std::vec::IntoIter;

/// The rows of a namespace, in order of their keys. After an error there are none.
pub struct Rows<'a> {
    handle: &'a mut Handle,
    namespace: Vec<u8>,
    start: Vec<u8>,
    end: Vec<u8>,
    at_once: usize,
    taken: IntoIter<Row>,
    more: bool,
}

/// A key has so many bytes at the most, and so has a bound of a scan.
const LONGEST: usize = 1024;

/// The least bound above a key. Nothing is above a longest key of bytes 255: then it is the key, after which no row is left.
fn least_above(key: &[u8]) -> Vec<u8> {
    if key.len() < LONGEST {
        return [key, &[0]].concat();
    }
    match key.iter().rposition(|&byte| byte < u8::MAX) {
        Some(last) => [&key[..last], &[key[last] + 1]].concat(),
        None => key.to_vec(),
    }
}

impl<'a> Rows<'a> {
    pub(crate) fn new(handle: &'a mut Handle, namespace: &[u8], start: &[u8], end: &[u8]) -> Rows<'a> {
        let (namespace, start, end) = (namespace.to_vec(), start.to_vec(), end.to_vec());
        Rows { handle, namespace, start, end, at_once: 256, taken: vec![].into_iter(), more: true }
    }

    /// Has each call of the library take so many rows, at least one, in place of 256.
    pub fn at_once(self, rows: usize) -> Rows<'a> {
        Rows { at_once: rows.max(1), ..self }
    }

    /// Takes the next rows.
    fn take_more(&mut self) -> Result<(), Error> {
        let (mut pool, mut rows) = (vec![0; 1 << 12], vec![sys::fabcommit_scanned_row::default(); self.at_once]);
        let (mut sizes, handle) = (sys::fabcommit_scan_sizes::default(), self.handle.raw());
        loop {
            let (namespace, start, end) = (&self.namespace, &self.start, &self.end);
            match call!(fabcommit_scan, to handle, in namespace, in start, in end, out pool, out rows, to &mut sizes) {
                sys::FABCOMMIT_OK => break,
                sys::FABCOMMIT_SMALL => pool.resize(sizes.pool, 0),
                code => return Err(Error::of(code, 0, 0)),
            }
        }
        let row = |row: &sys::fabcommit_scanned_row| Row {
            key: copied(&pool, row.key),
            value: copied(&pool, row.value),
            version: Version { block: row.block, tx: row.tx },
        };
        let taken: Vec<Row> = rows[..sizes.rows].iter().map(row).collect();
        if let Some(last) = taken.last() {
            self.start = least_above(&last.key);
        }
        self.more = sizes.more;
        self.taken = taken.into_iter();
        Ok(())
    }
}

impl Iterator for Rows<'_> {
    type Item = Result<Row, Error>;

    fn next(&mut self) -> Option<Result<Row, Error>> {
        if self.taken.len() == 0 && self.more {
            if let Err(error) = self.take_more() {
                self.more = false;
                return Some(Err(error));
            }
        }
        self.taken.next().map(Ok)
    }
}

impl FusedIterator for Rows<'_> {}

/// The value writes and deletes of a key, the newest first.
pub struct History {
    pool: Vec<u8>,
    writes: IntoIter<sys::fabcommit_past_write>,
}

impl History {
    pub(crate) fn of(handle: &mut Handle, namespace: &[u8], key: &[u8]) -> Result<History, Error> {
        let (mut pool, mut writes, mut sizes) = (vec![], vec![], sys::fabcommit_history_sizes::default());
        loop {
            match call!(fabcommit_history, to handle.raw(), in namespace, in key, out pool, out writes, to &mut sizes) {
                sys::FABCOMMIT_OK => return Ok(History { pool, writes: writes.into_iter() }),
                sys::FABCOMMIT_SMALL => {
                    pool.resize(sizes.pool, 0);
                    writes.resize(sizes.writes, Default::default());
                }
                code => return Err(Error::of(code, 0, 0)),
            }
        }
    }
}

impl Iterator for History {
    type Item = Write;

    fn next(&mut self) -> Option<Write> {
        self.writes.next().map(|write| Write {
            id: copied(&self.pool, write.id),
            value: (!write.deleted).then(|| copied(&self.pool, write.value)),
            version: Version { block: write.block, tx: write.tx },
        })
    }

    fn size_hint(&self) -> (usize, Option<usize>) {
        self.writes.size_hint()
    }
}

impl ExactSizeIterator for History {}
impl FusedIterator for History {}

#[cfg(test)]
mod tests {
    use super::{least_above, LONGEST};

    #[test]
    fn bounds_above_keys() {
        let longest = |end: &[u8]| [&vec![b'k'; LONGEST - end.len()], end].concat();
        assert_eq!(least_above(b"car1"), b"car1\0");
        assert_eq!(least_above(&longest(b"a")), longest(b"b"));
        assert_eq!(least_above(&longest(b"a\xff")), longest(b"b\0")[..LONGEST - 1]);
        assert_eq!(least_above(&[255; LONGEST]), [255; LONGEST]);
    }
}
