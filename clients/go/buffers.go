package fabcommit

// #include "fabcommit.h"
import "C"

import "unsafe"

// No pointer is null, also of an empty buffer.
var none [1]byte

func at(bytes []byte) *C.uint8_t {
	if len(bytes) == 0 {
		return (*C.uint8_t)(unsafe.Pointer(&none[0]))
	}
	return (*C.uint8_t)(unsafe.Pointer(&bytes[0]))
}

// first returns a pointer to a list's first element, or to one beside it if it is empty.
func first[T any](list []T) *T {
	if len(list) == 0 {
		return new(T)
	}
	return &list[0]
}

func copied(bytes []byte) []byte { return append([]byte{}, bytes...) }

// part returns a copy of a piece of a pool.
func part(pool []byte, piece C.fabcommit_piece) []byte { return copied(pool[piece.at:][:piece.len]) }

// octets returns what a call writes into a buffer, which is made as long as the call says.
func (l *Ledger) octets(call func(*C.fabcommit_handle, *C.uint8_t, C.size_t, *C.size_t) C.uint32_t) ([]byte, error) {
	buffer := make([]byte, 64)
	for {
		var length C.size_t
		code := l.with(func(handle *C.fabcommit_handle) C.uint32_t {
			return call(handle, at(buffer), C.size_t(len(buffer)), &length)
		})
		switch code {
		case C.FABCOMMIT_OK:
			return buffer[:length], nil
		case C.FABCOMMIT_SMALL:
			buffer = make([]byte, length)
		default:
			return nil, refusal(code)
		}
	}
}
