package fabcommit

// #include "fabcommit.h"
import "C"

// Get returns the row of a key of a namespace, or ErrNone.
func (l *Ledger) Get(namespace string, key []byte) (Row, error) {
	var row C.fabcommit_row
	ns := []byte(namespace)
	value, err := l.octets(func(handle *C.fabcommit_handle, value *C.uint8_t, room C.size_t, length *C.size_t) C.uint32_t {
		code := C.fabcommit_get(handle, at(ns), C.size_t(len(ns)), at(key), C.size_t(len(key)), &row, value, room)
		*length = row.len
		return code
	})
	if err != nil {
		return Row{}, err
	}
	return Row{copied(key), value, Version{uint64(row.block), uint32(row.tx)}}, nil
}

// KeyPolicy returns the canonical text of the policy that a key has of its own, or ErrNone.
func (l *Ledger) KeyPolicy(namespace string, key []byte) (string, error) {
	ns := []byte(namespace)
	text, err := l.octets(func(handle *C.fabcommit_handle, text *C.uint8_t, room C.size_t, length *C.size_t) C.uint32_t {
		return C.fabcommit_key_policy(handle, at(ns), C.size_t(len(ns)), at(key), C.size_t(len(key)), text, room, length)
	})
	return string(text), err
}

// Definition returns the canonical text of a chaincode's policy, or ErrNone.
func (l *Ledger) Definition(chaincode string) (string, error) {
	name := []byte(chaincode)
	text, err := l.octets(func(handle *C.fabcommit_handle, text *C.uint8_t, room C.size_t, length *C.size_t) C.uint32_t {
		return C.fabcommit_definition(handle, at(name), C.size_t(len(name)), text, room, length)
	})
	return string(text), err
}

// FirstUse returns where an id of 64 bytes was used first, or ErrNone.
func (l *Ledger) FirstUse(id []byte) (Use, error) {
	var use C.fabcommit_use
	code := l.with(func(handle *C.fabcommit_handle) C.uint32_t {
		return C.fabcommit_first_use(handle, at(id), C.size_t(len(id)), &use)
	})
	return Use{Version{uint64(use.block), uint32(use.tx)}, Flag(use.flag)}, refusal(code)
}

// History returns the value writes and deletes of a key, the newest first.
func (l *Ledger) History(namespace string, key []byte) ([]Write, error) {
	var pool []byte
	var writes []C.fabcommit_past_write
	ns := []byte(namespace)
	for {
		var sizes C.fabcommit_history_sizes
		code := l.with(func(handle *C.fabcommit_handle) C.uint32_t {
			return C.fabcommit_history(
				handle, at(ns), C.size_t(len(ns)), at(key), C.size_t(len(key)), at(pool), C.size_t(len(pool)), first(writes),
				C.size_t(len(writes)), &sizes,
			)
		})
		switch code {
		case C.FABCOMMIT_OK:
			return pastWrites(pool, writes[:sizes.writes]), nil
		case C.FABCOMMIT_SMALL:
			pool, writes = make([]byte, sizes.pool), make([]C.fabcommit_past_write, sizes.writes)
		default:
			return nil, refusal(code)
		}
	}
}

func pastWrites(pool []byte, writes []C.fabcommit_past_write) []Write {
	list := make([]Write, len(writes))
	for i, write := range writes {
		list[i] = Write{ID: part(pool, write.id), Version: Version{uint64(write.block), uint32(write.tx)}}
		if !write.deleted {
			list[i].Value = part(pool, write.value)
		}
	}
	return list
}
