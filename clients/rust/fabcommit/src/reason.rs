//! Why a transaction has its flag.
use crate::{Flag, Identity, Role, Version};

/// Why a policy's text can't be read.
#[derive(Clone, Copy, Debug, PartialEq, Eq)]
pub enum TextFault {
    /// It is too large.
    TooLarge,
    /// It is no policy.
    Syntax,
    /// It names a role that isn't one.
    Role,
    /// It wants none of a list, or more than there are.
    Threshold,
    /// It is nested too deep.
    TooDeep,
}

/// Whom a policy asks for.
#[derive(Clone, Debug, PartialEq, Eq)]
pub struct Principal {
    /// The organization.
    pub org: Vec<u8>,
    /// The role, or `None` if any member will do.
    pub role: Option<Role>,
}

/// A policy that isn't satisfied.
#[derive(Clone, Debug, PartialEq, Eq)]
pub struct Lack {
    /// Its canonical text.
    pub policy: String,
    /// Who signed.
    pub signers: Vec<Identity>,
    /// The endorsers of whom no signature is accepted.
    pub refused: Vec<Identity>,
    /// Who is missing.
    pub missing: Option<Principal>,
    /// Whether the same signers would do in another order.
    pub another_order: bool,
}

/// A range of keys, from a start to before an end, which is no bound if it is empty.
#[derive(Clone, Debug, PartialEq, Eq)]
#[allow(missing_docs)]
pub struct Range {
    pub start: Vec<u8>,
    pub end: Vec<u8>,
}

/// A transaction's flag, and why it has it.
#[derive(Clone, Debug, PartialEq, Eq)]
pub struct Reason {
    /// The flag.
    pub flag: Flag,
    /// The cause.
    pub cause: Cause,
}

/// What is told of each kind of reason. A `name` is that of a namespace, a chaincode or a channel.
#[derive(Clone, Debug, PartialEq, Eq)]
#[allow(missing_docs)]
pub enum Cause {
    /// The transaction is valid.
    NoFault,
    /// Its bytes spell no transaction.
    NoTransaction,
    /// The creator's signature was refused.
    BadSignature { creator: Identity },
    /// It is for another channel.
    OtherChannel { name: Vec<u8> },
    /// Its nonce and creator give this id.
    OtherId { id: Vec<u8> },
    /// A transaction used its id before, in this block or in an earlier one.
    UsedId { used: Version, used_flag: Flag },
    /// An update isn't alone in its block.
    NotAlone,
    /// The channel has no policy for updates.
    NoAdminPolicy,
    /// An update is of a chaincode that isn't defined.
    UpdateUndefined { name: Vec<u8> },
    /// The policy of an update can't be read.
    UpdateUnreadable { text_fault: TextFault },
    /// The channel's policy for updates isn't satisfied.
    AdminUnsatisfied { lack: Lack },
    /// A chaincode isn't defined.
    Undefined { name: Vec<u8> },
    /// A namespace comes twice.
    NamespaceRepeats { name: Vec<u8> },
    /// A key is read twice.
    ReadRepeats { name: Vec<u8>, key: Vec<u8> },
    /// A key is written twice.
    WriteRepeats { name: Vec<u8>, key: Vec<u8> },
    /// The policy of a key is written twice.
    PolicyWriteRepeats { name: Vec<u8>, key: Vec<u8> },
    /// A result of a range isn't above the one before. The places are those of the range in its namespace, and of the
    /// result in the range.
    ResultFalls { name: Vec<u8>, range: Range, key: Vec<u8>, range_place: usize, result_place: usize },
    /// A result of a range is outside of its bounds.
    ResultLeaves { name: Vec<u8>, range: Range, key: Vec<u8>, range_place: usize, result_place: usize },
    /// The policy that is written for a key can't be read.
    PolicyUnreadable { name: Vec<u8>, key: Vec<u8>, text_fault: TextFault },
    /// A transaction of this block wrote the key's policy; `tx` is the first.
    Touched { name: Vec<u8>, key: Vec<u8>, tx: u32 },
    /// The policy of a key isn't satisfied.
    KeyUnsatisfied { name: Vec<u8>, key: Vec<u8>, lack: Lack },
    /// The policy of the chaincode isn't satisfied, which goes for this key.
    ChaincodeUnsatisfied { name: Vec<u8>, key: Vec<u8>, lack: Lack },
    /// The policy of the chaincode that is named isn't satisfied.
    NamedUnsatisfied { name: Vec<u8>, lack: Lack },
    /// A key has another version than was read, or none. `by` is the last transaction of this block that wrote or
    /// deleted it.
    ReadConflict { name: Vec<u8>, key: Vec<u8>, read: Option<Version>, there: Option<Version>, by: Option<u32> },
    /// The same of a key in a range, which was read to its end if it is exhausted.
    PhantomConflict {
        name: Vec<u8>,
        key: Vec<u8>,
        read: Option<Version>,
        there: Option<Version>,
        by: Option<u32>,
        range: Range,
        exhausted: bool,
    },
}
