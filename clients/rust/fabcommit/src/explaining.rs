//! Reasons from the records that the library writes.
use crate::pool::copied;
use crate::{Cause, Flag, Identity, Lack, Principal, Range, Reason, Role, TextFault, Version};
use fabcommit_sys as sys;

const ANY_MEMBER: u8 = 4;

/// One record, with what its pieces and identities are of.
pub(crate) struct Record<'a> {
    pub record: &'a sys::fabcommit_reason,
    pub identities: &'a [sys::fabcommit_identity],
    pub pool: &'a [u8],
}

fn version(seen: sys::fabcommit_seen) -> Option<Version> {
    seen.is_there.then_some(Version { block: seen.block, tx: seen.tx })
}

impl Record<'_> {
    fn name(&self) -> Vec<u8> {
        copied(self.pool, self.record.name)
    }

    fn key(&self) -> Vec<u8> {
        copied(self.pool, self.record.key)
    }

    fn range(&self) -> Range {
        Range { start: copied(self.pool, self.record.start), end: copied(self.pool, self.record.end) }
    }

    fn named(&self, first: usize, count: usize) -> Vec<Identity> {
        let identity = |named: &sys::fabcommit_identity| Identity {
            org: copied(self.pool, named.org),
            role: Role::of(named.role),
            label: copied(self.pool, named.label),
        };
        self.identities[self.record.first_identity + first..][..count].iter().map(identity).collect()
    }

    fn missing(&self) -> Option<Principal> {
        let role = self.record.missing_role;
        self.record.has_missing.then(|| Principal {
            org: copied(self.pool, self.record.missing_org),
            role: (role != ANY_MEMBER).then(|| Role::of(role)),
        })
    }

    fn lack(&self) -> Lack {
        let record = self.record;
        Lack {
            policy: String::from_utf8_lossy(&copied(self.pool, record.policy)).into_owned(),
            signers: self.named(0, record.signers),
            refused: self.named(record.signers, record.refused),
            missing: self.missing(),
            another_order: record.another_order,
        }
    }

    fn text_fault(&self) -> TextFault {
        match self.record.text_fault {
            1 => TextFault::TooLarge,
            2 => TextFault::Syntax,
            3 => TextFault::Role,
            4 => TextFault::Threshold,
            5 => TextFault::TooDeep,
            other => unreachable!("the library numbers no fault {other} of a text"),
        }
    }

    fn cause(&self) -> Cause {
        let (record, name, key) = (self.record, self.name(), self.key());
        let (range_place, result_place) = (record.range_place, record.result_place);
        let (read, there, by) = (version(record.read), version(record.there), record.has_tx.then_some(record.tx));
        match record.kind {
            sys::FABCOMMIT_REASON_NO_FAULT => Cause::NoFault,
            sys::FABCOMMIT_REASON_NO_TRANSACTION => Cause::NoTransaction,
            sys::FABCOMMIT_REASON_BAD_SIGNATURE => Cause::BadSignature { creator: self.named(0, 1).remove(0) },
            sys::FABCOMMIT_REASON_OTHER_CHANNEL => Cause::OtherChannel { name },
            sys::FABCOMMIT_REASON_OTHER_ID => Cause::OtherId { id: copied(self.pool, record.id) },
            sys::FABCOMMIT_REASON_USED_ID => Cause::UsedId {
                used: Version { block: record.block, tx: record.tx },
                used_flag: Flag::of(record.used_flag),
            },
            sys::FABCOMMIT_REASON_NOT_ALONE => Cause::NotAlone,
            sys::FABCOMMIT_REASON_NO_ADMIN_POLICY => Cause::NoAdminPolicy,
            sys::FABCOMMIT_REASON_UPDATE_UNDEFINED => Cause::UpdateUndefined { name },
            sys::FABCOMMIT_REASON_UPDATE_UNREADABLE => Cause::UpdateUnreadable { text_fault: self.text_fault() },
            sys::FABCOMMIT_REASON_ADMIN_UNSATISFIED => Cause::AdminUnsatisfied { lack: self.lack() },
            sys::FABCOMMIT_REASON_UNDEFINED => Cause::Undefined { name },
            sys::FABCOMMIT_REASON_NAMESPACE_REPEATS => Cause::NamespaceRepeats { name },
            sys::FABCOMMIT_REASON_READ_REPEATS => Cause::ReadRepeats { name, key },
            sys::FABCOMMIT_REASON_WRITE_REPEATS => Cause::WriteRepeats { name, key },
            sys::FABCOMMIT_REASON_POLICY_WRITE_REPEATS => Cause::PolicyWriteRepeats { name, key },
            sys::FABCOMMIT_REASON_RESULT_FALLS => {
                Cause::ResultFalls { name, range: self.range(), key, range_place, result_place }
            }
            sys::FABCOMMIT_REASON_RESULT_LEAVES => {
                Cause::ResultLeaves { name, range: self.range(), key, range_place, result_place }
            }
            sys::FABCOMMIT_REASON_POLICY_UNREADABLE => {
                Cause::PolicyUnreadable { name, key, text_fault: self.text_fault() }
            }
            sys::FABCOMMIT_REASON_TOUCHED => Cause::Touched { name, key, tx: record.tx },
            sys::FABCOMMIT_REASON_KEY_UNSATISFIED => Cause::KeyUnsatisfied { name, key, lack: self.lack() },
            sys::FABCOMMIT_REASON_CHAINCODE_UNSATISFIED => Cause::ChaincodeUnsatisfied { name, key, lack: self.lack() },
            sys::FABCOMMIT_REASON_NAMED_UNSATISFIED => Cause::NamedUnsatisfied { name, lack: self.lack() },
            sys::FABCOMMIT_REASON_READ_CONFLICT => Cause::ReadConflict { name, key, read, there, by },
            sys::FABCOMMIT_REASON_PHANTOM_CONFLICT => {
                let (range, exhausted) = (self.range(), record.exhausted);
                Cause::PhantomConflict { name, key, read, there, by, range, exhausted }
            }
            other => unreachable!("the library numbers no reason {other}"),
        }
    }

    pub(crate) fn reason(&self) -> Reason {
        Reason { flag: Flag::of(self.record.flag), cause: self.cause() }
    }
}
