//! What the calls tell, as values.

/// The version of the library's interface, and the first and last version of the blocks that it reads.
#[derive(Clone, Copy, Debug, PartialEq, Eq)]
pub struct Versions {
    /// That of the interface.
    pub interface: u32,
    /// The first version of the blocks.
    pub first_block: u32,
    /// The last version of the blocks.
    pub last_block: u32,
}

/// An identity's role in its organization.
#[derive(Clone, Copy, Debug, PartialEq, Eq, Hash, PartialOrd, Ord)]
#[allow(missing_docs)]
pub enum Role {
    Admin,
    Client,
    Peer,
    Orderer,
}

impl Role {
    pub(crate) fn of(number: u8) -> Role {
        match number {
            0 => Role::Admin,
            1 => Role::Client,
            2 => Role::Peer,
            3 => Role::Orderer,
            _ => unreachable!("the library numbers no role {number}"),
        }
    }

    /// Its name in a policy's text.
    pub fn name(self) -> &'static str {
        match self {
            Role::Admin => "admin",
            Role::Client => "client",
            Role::Peer => "peer",
            Role::Orderer => "orderer",
        }
    }
}

macro_rules! flags {
    ($($flag:ident = $number:literal, $name:literal;)*) => {
        /// A transaction's flag, as in Fabric's TxValidationCode.
        #[derive(Clone, Copy, Debug, PartialEq, Eq, Hash)]
        #[allow(missing_docs)]
        #[repr(u8)]
        pub enum Flag { $($flag = $number),* }

        impl Flag {
            pub(crate) fn of(number: u8) -> Flag {
                match number {
                    $($number => Flag::$flag,)*
                    _ => unreachable!("the library numbers no flag {number}"),
                }
            }

            /// Its number in Fabric.
            pub fn number(self) -> u8 {
                self as u8
            }

            /// Its name in Fabric.
            pub fn name(self) -> &'static str {
                match self { $(Flag::$flag => $name),* }
            }
        }
    };
}

flags! {
    Valid = 0, "VALID";
    BadPayload = 2, "BAD_PAYLOAD";
    BadCreatorSignature = 4, "BAD_CREATOR_SIGNATURE";
    InvalidConfigTransaction = 6, "INVALID_CONFIG_TRANSACTION";
    BadProposalTxid = 8, "BAD_PROPOSAL_TXID";
    DuplicateTxid = 9, "DUPLICATE_TXID";
    EndorsementPolicyFailure = 10, "ENDORSEMENT_POLICY_FAILURE";
    MvccReadConflict = 11, "MVCC_READ_CONFLICT";
    PhantomReadConflict = 12, "PHANTOM_READ_CONFLICT";
    TargetChainNotFound = 14, "TARGET_CHAIN_NOT_FOUND";
    BadRwset = 22, "BAD_RWSET";
    InvalidChaincode = 25, "INVALID_CHAINCODE";
}

/// An identity: a label and a role in an organization.
#[derive(Clone, Debug, PartialEq, Eq, Hash)]
pub struct Identity {
    /// Its organization's name.
    pub org: Vec<u8>,
    /// Its role.
    pub role: Role,
    /// What tells it from others of its role.
    pub label: Vec<u8>,
}

/// An accepted block.
#[derive(Clone, Copy, Debug, PartialEq, Eq)]
pub struct Receipt {
    /// Its number.
    pub number: u64,
    /// How many transactions it has.
    pub transactions: usize,
    /// The hash of its header.
    pub header_hash: [u8; 32],
    /// The hash of what was committed up to it.
    pub commit_hash: [u8; 32],
}

/// A transaction that wrote a key, or used an id.
#[derive(Clone, Copy, Debug, PartialEq, Eq, Hash, PartialOrd, Ord)]
pub struct Version {
    /// The number of its block.
    pub block: u64,
    /// Its place in the block.
    pub tx: u32,
}

/// A row of the state.
#[derive(Clone, Debug, PartialEq, Eq)]
pub struct Row {
    /// Its key.
    pub key: Vec<u8>,
    /// Its value.
    pub value: Vec<u8>,
    /// Where it was written last.
    pub version: Version,
}

/// A past write of a key.
#[derive(Clone, Debug, PartialEq, Eq)]
pub struct Write {
    /// The transaction's id, of 64 bytes.
    pub id: Vec<u8>,
    /// The value, or `None` of a delete.
    pub value: Option<Vec<u8>>,
    /// Where the transaction stands.
    pub version: Version,
}

/// An id's first use.
#[derive(Clone, Copy, Debug, PartialEq, Eq)]
pub struct Use {
    /// Where the transaction stands.
    pub version: Version,
    /// The transaction's flag.
    pub flag: Flag,
}
