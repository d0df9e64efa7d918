package fabcommit

// #include "fabcommit.h"
import "C"

import (
	"runtime"
	"sync"
)

// Identity is a label and a role in an organization.
type Identity struct {
	Org   []byte
	Role  Role
	Label []byte
}

// Request is a signature, with who is said to have signed what.
type Request struct {
	Identity
	Message, Signature []byte
}

// Verify tells whether a signature is good. Several goroutines may call it at once.
type Verify func(Request) bool

// Listing has the signatures that a block may ask about. It needs no ledger, so blocks may be listed and checked before
// their turn. It keeps the block's bytes, which may not change.
type Listing struct {
	block, pool []byte
	verdicts    []C.fabcommit_verdict
}

// List returns those of a block, also of one that a ledger would refuse. None is accepted at first.
func List(block []byte) (*Listing, error) {
	listing := &Listing{block: block}
	for {
		var sizes C.fabcommit_sizes
		code := C.fabcommit_list(
			at(block), C.size_t(len(block)), at(listing.pool), C.size_t(len(listing.pool)), first(listing.verdicts),
			C.size_t(len(listing.verdicts)), &sizes,
		)
		switch code {
		case C.FABCOMMIT_OK:
			return listing, nil
		case C.FABCOMMIT_SMALL:
			listing.pool, listing.verdicts = make([]byte, sizes.pool), make([]C.fabcommit_verdict, sizes.verdicts)
		default:
			return nil, refusal(code)
		}
	}
}

// Len returns how many requests there are.
func (l *Listing) Len() int { return len(l.verdicts) }

// Request returns the one at a place.
func (l *Listing) Request(place int) Request {
	v := &l.verdicts[place]
	identity := Identity{part(l.pool, v.org), Role(v.role), part(l.pool, v.label)}
	return Request{identity, part(l.pool, v.message), part(l.pool, v.signature)}
}

// Accept says whether the signature at a place is good.
func (l *Listing) Accept(place int, isGood bool) { l.verdicts[place].accepted = C.bool(isGood) }

// Answer has a verifier answer each request, in goroutines.
func (l *Listing) Answer(verify Verify) {
	workers := runtime.GOMAXPROCS(0)
	var done sync.WaitGroup
	for worker := 0; worker < workers; worker++ {
		done.Add(1)
		go func(place int) {
			defer done.Done()
			for ; place < l.Len(); place += workers {
				l.Accept(place, verify(l.Request(place)))
			}
		}(worker)
	}
	done.Wait()
}
