package fabcommit

// #include "fabcommit.h"
// #include <stdlib.h>
import "C"

import (
	"runtime"
	"sync"
	"unsafe"
)

// Receipt tells of an accepted block.
type Receipt struct {
	Number uint64
	// Flags is how many flags it has: one for each transaction.
	Flags                  int
	HeaderHash, CommitHash [32]byte
}

// Ledger is a channel's ledger. Several goroutines may use it: calls wait for each other. It is freed by Close, or once
// nothing refers to it.
type Ledger struct {
	mutex sync.Mutex
	// C allocates the handle, so that no pointer of C's is in Go's memory.
	handle *C.fabcommit_handle
}

// Each call writes its handle, so handles are on different cache lines.
const handleRoom = 128

// opened returns the ledger of the handle that a call opens.
func opened(call func(*C.fabcommit_handle) C.uint32_t) (*Ledger, error) {
	handle := (*C.fabcommit_handle)(C.calloc(1, handleRoom))
	if handle == nil {
		return nil, ErrMemory
	}
	if err := refusal(call(handle)); err != nil {
		C.free(unsafe.Pointer(handle))
		return nil, err
	}
	ledger := &Ledger{handle: handle}
	runtime.SetFinalizer(ledger, (*Ledger).Close)
	return ledger, nil
}

// Open returns the ledger of height 0 of a channel's text, with a text of keys if the library is to check signatures.
func Open(channel, keys []byte) (*Ledger, error) {
	if library := LibraryVersions().Interface; library != ownInterface {
		return nil, Refused{Code: ErrInterface.Code, Number: ownInterface, Got: uint64(library)}
	}
	return opened(func(handle *C.fabcommit_handle) C.uint32_t {
		return C.fabcommit_open(handle, at(channel), C.size_t(len(channel)), at(keys), C.size_t(len(keys)))
	})
}

// with calls a function with the handle, unless the ledger is closed.
func (l *Ledger) with(call func(*C.fabcommit_handle) C.uint32_t) C.uint32_t {
	l.mutex.Lock()
	defer l.mutex.Unlock()
	if l.handle == nil {
		return C.FABCOMMIT_CLOSED
	}
	return call(l.handle)
}

// Share returns one more Ledger of the same ledger and keys, so that both are queried at the same time. While there are
// two or more, a block is refused with ErrShared: close all but one, submit, and share again.
func (l *Ledger) Share() (*Ledger, error) {
	return opened(func(other *C.fabcommit_handle) C.uint32_t {
		return l.with(func(handle *C.fabcommit_handle) C.uint32_t { return C.fabcommit_share(handle, other) })
	})
}

// Close frees what the ledger holds, but what others share stays theirs. Later calls return ErrClosed; a second Close
// does nothing.
func (l *Ledger) Close() {
	l.mutex.Lock()
	defer l.mutex.Unlock()
	if l.handle != nil {
		C.fabcommit_close(l.handle)
		C.free(unsafe.Pointer(l.handle))
		l.handle = nil
		runtime.SetFinalizer(l, nil)
	}
}

func receiptOf(code C.uint32_t, r *C.fabcommit_receipt) (Receipt, error) {
	if code != C.FABCOMMIT_OK {
		return Receipt{}, Refused{uint32(code), uint64(r.number), uint64(r.got)}
	}
	receipt := Receipt{Number: uint64(r.number), Flags: int(r.flags)}
	for i := range receipt.HeaderHash {
		receipt.HeaderHash[i], receipt.CommitHash[i] = byte(r.header_hash[i]), byte(r.commit_hash[i])
	}
	return receipt, nil
}

// Submit hands in the next block, whose signatures are checked by the keys.
func (l *Ledger) Submit(block []byte) (Receipt, error) {
	var r C.fabcommit_receipt
	code := l.with(func(handle *C.fabcommit_handle) C.uint32_t {
		return C.fabcommit_submit(handle, at(block), C.size_t(len(block)), &r)
	})
	return receiptOf(code, &r)
}

// SubmitBy hands in the next block, whose signatures are checked by a verifier, in goroutines.
func (l *Ledger) SubmitBy(block []byte, verify Verify) (Receipt, error) {
	listing, err := List(block)
	if err != nil {
		// the ledger says more of what is no block
		return l.Submit(block)
	}
	listing.Answer(verify)
	return l.SubmitListing(listing)
}

// SubmitListing hands in the next block, whose signatures were checked.
func (l *Ledger) SubmitListing(listing *Listing) (Receipt, error) {
	var r C.fabcommit_receipt
	block, pool, verdicts := listing.block, listing.pool, listing.verdicts
	code := l.with(func(handle *C.fabcommit_handle) C.uint32_t {
		return C.fabcommit_submit_by(
			handle, at(block), C.size_t(len(block)), at(pool), C.size_t(len(pool)), first(verdicts), C.size_t(len(verdicts)), &r,
		)
	})
	return receiptOf(code, &r)
}

// Height returns the number of the next block.
func (l *Ledger) Height() (uint64, error) {
	var height C.uint64_t
	code := l.with(func(handle *C.fabcommit_handle) C.uint32_t { return C.fabcommit_height(handle, &height) })
	return uint64(height), refusal(code)
}

// Block returns the receipt of an accepted block. If there is none of this number, the error is ErrNone.
func (l *Ledger) Block(number uint64) (Receipt, error) {
	var r C.fabcommit_receipt
	code := l.with(func(handle *C.fabcommit_handle) C.uint32_t {
		return C.fabcommit_block(handle, C.uint64_t(number), &r)
	})
	return receiptOf(code, &r)
}

// Flags returns the flags of an accepted block, one for each transaction, or ErrNone.
func (l *Ledger) Flags(number uint64) ([]Flag, error) {
	octets, err := l.octets(func(handle *C.fabcommit_handle, flags *C.uint8_t, room C.size_t, length *C.size_t) C.uint32_t {
		return C.fabcommit_flags(handle, C.uint64_t(number), flags, room, length)
	})
	flags := make([]Flag, len(octets))
	for i, octet := range octets {
		flags[i] = Flag(octet)
	}
	return flags, err
}
