package fabcommit

import "fmt"

// Role is an identity's role in its organization.
type Role uint8

// The roles.
const (
	Admin Role = iota
	Client
	Peer
	Orderer
)

// String returns the role's name in a policy's text.
func (r Role) String() string {
	if r > Orderer {
		return fmt.Sprintf("role %d", uint8(r))
	}
	return [...]string{"admin", "client", "peer", "orderer"}[r]
}

// Flag is a transaction's flag, as in Fabric's TxValidationCode.
type Flag uint8

var flagNames = map[Flag]string{
	0: "VALID", 2: "BAD_PAYLOAD", 4: "BAD_CREATOR_SIGNATURE", 6: "INVALID_CONFIG_TRANSACTION", 8: "BAD_PROPOSAL_TXID",
	9: "DUPLICATE_TXID", 10: "ENDORSEMENT_POLICY_FAILURE", 11: "MVCC_READ_CONFLICT", 12: "PHANTOM_READ_CONFLICT",
	14: "TARGET_CHAIN_NOT_FOUND", 22: "BAD_RWSET", 25: "INVALID_CHAINCODE",
}

// String returns the flag's name in Fabric.
func (f Flag) String() string {
	if name, known := flagNames[f]; known {
		return name
	}
	return fmt.Sprintf("flag %d", uint8(f))
}

// Version is the transaction that wrote a key, or used an id: the number of its block, and its place in the block.
type Version struct {
	Block uint64
	Tx    uint32
}

// Row is a row of the state: a key, its value, and where it was written last.
type Row struct {
	Key, Value []byte
	Version
}

// Write is a past write of a key: the transaction's id, of 64 bytes, and the value, nil of a delete.
type Write struct {
	ID, Value []byte
	Version
}

// Use is an id's first use: where the transaction is, and its flag.
type Use struct {
	Version
	Flag Flag
}
