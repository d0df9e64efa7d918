package fabcommit

// #include "fabcommit.h"
import "C"

// Kind is what a reason is about.
type Kind uint8

// The kinds, with the fields of a Reason that they fill besides Flag and Kind.
const (
	NoFault              Kind = C.FABCOMMIT_REASON_NO_FAULT
	NoTransaction        Kind = C.FABCOMMIT_REASON_NO_TRANSACTION
	BadSignature         Kind = C.FABCOMMIT_REASON_BAD_SIGNATURE // Creator
	OtherChannel         Kind = C.FABCOMMIT_REASON_OTHER_CHANNEL // Name
	OtherID              Kind = C.FABCOMMIT_REASON_OTHER_ID      // ID
	UsedID               Kind = C.FABCOMMIT_REASON_USED_ID       // Used
	NotAlone             Kind = C.FABCOMMIT_REASON_NOT_ALONE
	NoAdminPolicy        Kind = C.FABCOMMIT_REASON_NO_ADMIN_POLICY
	UpdateUndefined      Kind = C.FABCOMMIT_REASON_UPDATE_UNDEFINED      // Name
	UpdateUnreadable     Kind = C.FABCOMMIT_REASON_UPDATE_UNREADABLE     // TextFault
	AdminUnsatisfied     Kind = C.FABCOMMIT_REASON_ADMIN_UNSATISFIED     // Lack
	Undefined            Kind = C.FABCOMMIT_REASON_UNDEFINED             // Name
	NamespaceRepeats     Kind = C.FABCOMMIT_REASON_NAMESPACE_REPEATS     // Name
	ReadRepeats          Kind = C.FABCOMMIT_REASON_READ_REPEATS          // Name, Key
	WriteRepeats         Kind = C.FABCOMMIT_REASON_WRITE_REPEATS         // Name, Key
	PolicyWriteRepeats   Kind = C.FABCOMMIT_REASON_POLICY_WRITE_REPEATS  // Name, Key
	ResultFalls          Kind = C.FABCOMMIT_REASON_RESULT_FALLS          // Name, Key, Start, End, RangePlace, ResultPlace
	ResultLeaves         Kind = C.FABCOMMIT_REASON_RESULT_LEAVES         // the same
	PolicyUnreadable     Kind = C.FABCOMMIT_REASON_POLICY_UNREADABLE     // Name, Key, TextFault
	Touched              Kind = C.FABCOMMIT_REASON_TOUCHED               // Name, Key, By: the first that wrote its policy
	KeyUnsatisfied       Kind = C.FABCOMMIT_REASON_KEY_UNSATISFIED       // Name, Key, Lack
	ChaincodeUnsatisfied Kind = C.FABCOMMIT_REASON_CHAINCODE_UNSATISFIED // Name, Key, Lack
	NamedUnsatisfied     Kind = C.FABCOMMIT_REASON_NAMED_UNSATISFIED     // Name, Lack
	ReadConflict         Kind = C.FABCOMMIT_REASON_READ_CONFLICT         // Name, Key, Read, There, By
	PhantomConflict      Kind = C.FABCOMMIT_REASON_PHANTOM_CONFLICT      // the same, and Start, End, Exhausted
)

// TextFault is why a policy's text can't be read.
type TextFault uint8

// The faults.
const (
	TooLarge TextFault = iota + 1
	Syntax
	BadRole
	Threshold
	TooDeep
)

// Principal is whom a policy requires: a role in an organization, or nil for any member.
type Principal struct {
	Org  []byte
	Role *Role
}

// Lack is a policy that isn't satisfied.
type Lack struct {
	// Policy is its canonical text.
	Policy string
	// Signers signed; of the Refused no signature is accepted.
	Signers, Refused []Identity
	// Missing is the principal that is missing, if one is.
	Missing *Principal
	// AnotherOrder tells whether the same signers would do in another order.
	AnotherOrder bool
}

// Reason is why a transaction has its flag. What its kind doesn't speak of is empty.
type Reason struct {
	Flag Flag
	Kind Kind
	// Name is that of a namespace, a chaincode or a channel.
	Name, Key []byte
	// Start and End are the bounds of a range; an empty end is no bound.
	Start, End              []byte
	RangePlace, ResultPlace int
	// Exhausted tells whether a range was read to its end.
	Exhausted bool
	// ID is the one that nonce and creator give.
	ID []byte
	// Used is the id's first use.
	Used *Use
	// Creator is the one whose signature was refused.
	Creator   *Identity
	TextFault TextFault
	Lack      *Lack
	// Read is the version of the key that was read, and There the one that is there; nil if it was, or is, absent.
	Read, There *Version
	// By is the place of a transaction of this block: the last that wrote or deleted the key, if there is one.
	By *uint32
}

// explained has what a call of the library writes.
type explained struct {
	pool       []byte
	reasons    []C.fabcommit_reason
	identities []C.fabcommit_identity
	sizes      C.fabcommit_reason_sizes
}

// Explain returns why each transaction of the next block would have its flag, by the ledger's keys. It commits nothing.
func (l *Ledger) Explain(block []byte) ([]Reason, error) {
	return l.explain(func(handle *C.fabcommit_handle, to *explained) C.uint32_t {
		return C.fabcommit_explain(
			handle, at(block), C.size_t(len(block)), at(to.pool), C.size_t(len(to.pool)), first(to.reasons),
			C.size_t(len(to.reasons)), first(to.identities), C.size_t(len(to.identities)), &to.sizes,
		)
	})
}

// ExplainListing does so for a block whose signatures were checked.
func (l *Ledger) ExplainListing(listing *Listing) ([]Reason, error) {
	block, pool, verdicts := listing.block, listing.pool, listing.verdicts
	return l.explain(func(handle *C.fabcommit_handle, to *explained) C.uint32_t {
		return C.fabcommit_explain_by(
			handle, at(block), C.size_t(len(block)), at(pool), C.size_t(len(pool)), first(verdicts), C.size_t(len(verdicts)),
			at(to.pool), C.size_t(len(to.pool)), first(to.reasons), C.size_t(len(to.reasons)), first(to.identities),
			C.size_t(len(to.identities)), &to.sizes,
		)
	})
}

func (l *Ledger) explain(call func(*C.fabcommit_handle, *explained) C.uint32_t) ([]Reason, error) {
	var to explained
	for {
		code := l.with(func(handle *C.fabcommit_handle) C.uint32_t { return call(handle, &to) })
		switch code {
		case C.FABCOMMIT_OK:
			return to.all(), nil
		case C.FABCOMMIT_SMALL:
			to.pool, to.reasons = make([]byte, to.sizes.pool), make([]C.fabcommit_reason, to.sizes.reasons)
			to.identities = make([]C.fabcommit_identity, to.sizes.identities)
		default:
			return nil, Refused{uint32(code), uint64(to.sizes.number), uint64(to.sizes.got)}
		}
	}
}

func (e *explained) all() []Reason {
	reasons := make([]Reason, e.sizes.reasons)
	for i := range reasons {
		reasons[i] = e.reason(&e.reasons[i])
	}
	return reasons
}

func seen(version C.fabcommit_seen) *Version {
	if !version.is_there {
		return nil
	}
	return &Version{uint64(version.block), uint32(version.tx)}
}

func (e *explained) identity(place C.size_t) Identity {
	named := e.identities[place]
	return Identity{part(e.pool, named.org), Role(named.role), part(e.pool, named.label)}
}

func (e *explained) lack(r *C.fabcommit_reason) *Lack {
	lack := &Lack{Policy: string(part(e.pool, r.policy)), AnotherOrder: bool(r.another_order)}
	for i := C.size_t(0); i < r.signers; i++ {
		lack.Signers = append(lack.Signers, e.identity(r.first_identity+i))
	}
	for i := C.size_t(0); i < r.refused; i++ {
		lack.Refused = append(lack.Refused, e.identity(r.first_identity+r.signers+i))
	}
	if r.has_missing {
		lack.Missing = &Principal{Org: part(e.pool, r.missing_org)}
		if role := Role(r.missing_role); role <= Orderer {
			lack.Missing.Role = &role
		}
	}
	return lack
}

func (e *explained) reason(r *C.fabcommit_reason) Reason {
	reason := Reason{
		Flag: Flag(r.flag), Kind: Kind(r.kind), Name: part(e.pool, r.name), Key: part(e.pool, r.key),
		Start: part(e.pool, r.start), End: part(e.pool, r.end), RangePlace: int(r.range_place),
		ResultPlace: int(r.result_place), Exhausted: bool(r.exhausted), ID: part(e.pool, r.id),
		TextFault: TextFault(r.text_fault), Read: seen(r.read), There: seen(r.there),
	}
	switch reason.Kind {
	case BadSignature:
		creator := e.identity(r.first_identity)
		reason.Creator = &creator
	case UsedID:
		reason.Used = &Use{Version{uint64(r.block), uint32(r.tx)}, Flag(r.used_flag)}
	case AdminUnsatisfied, KeyUnsatisfied, ChaincodeUnsatisfied, NamedUnsatisfied:
		reason.Lack = e.lack(r)
	}
	if r.has_tx || reason.Kind == Touched {
		by := uint32(r.tx)
		reason.By = &by
	}
	return reason
}
