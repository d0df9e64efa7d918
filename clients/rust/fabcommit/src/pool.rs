//! Bytes of which pieces are told.
use fabcommit_sys::fabcommit_piece;

pub(crate) fn part(pool: &[u8], piece: fabcommit_piece) -> &[u8] {
    &pool[piece.at..][..piece.len]
}

pub(crate) fn copied(pool: &[u8], piece: fabcommit_piece) -> Vec<u8> {
    part(pool, piece).to_vec()
}
