package fabcommit

// #include "fabcommit.h"
import "C"

import "bytes"

// Rows are the rows of a scan, one by one, in order of their keys:
//
//	rows := ledger.Scan("cc", []byte("car"), nil)
//	for rows.Next() {
//		fmt.Println(rows.Row())
//	}
//	err := rows.Err()
//
// They are taken from the ledger in parts, between which blocks may be committed.
type Rows struct {
	ledger                *Ledger
	namespace, start, end []byte
	taken                 []Row
	row                   Row
	more                  bool
	err                   error
}

// So many rows are taken at once.
const atOnce = 256

// A key has at most so many bytes, and so has a bound of a scan.
const longest = 1024

// Scan returns the rows of a namespace from a start to before an end, which is no bound if it is empty.
func (l *Ledger) Scan(namespace string, start, end []byte) *Rows {
	return &Rows{ledger: l, namespace: []byte(namespace), start: copied(start), end: copied(end), more: true}
}

// Next goes on to the next row. It returns false if there is none, or after an error.
func (r *Rows) Next() bool {
	if len(r.taken) == 0 && r.more {
		r.more, r.err = r.take()
	}
	if len(r.taken) == 0 {
		return false
	}
	r.row, r.taken = r.taken[0], r.taken[1:]
	return true
}

// Row returns the row that Next went on to.
func (r *Rows) Row() Row { return r.row }

// Err returns why there are no more rows, or nil if there are none.
func (r *Rows) Err() error { return r.err }

// take takes the next rows, and tells whether others are left.
func (r *Rows) take() (bool, error) {
	pool, rows := make([]byte, 1<<12), make([]C.fabcommit_scanned_row, atOnce)
	for {
		var sizes C.fabcommit_scan_sizes
		code := r.ledger.with(func(handle *C.fabcommit_handle) C.uint32_t {
			return C.fabcommit_scan(
				handle, at(r.namespace), C.size_t(len(r.namespace)), at(r.start), C.size_t(len(r.start)), at(r.end),
				C.size_t(len(r.end)), at(pool), C.size_t(len(pool)), first(rows), C.size_t(len(rows)), &sizes,
			)
		})
		switch code {
		case C.FABCOMMIT_OK:
			r.keep(pool, rows[:sizes.rows])
			return bool(sizes.more), nil
		case C.FABCOMMIT_SMALL:
			pool = make([]byte, sizes.pool)
		default:
			return false, refusal(code)
		}
	}
}

func (r *Rows) keep(pool []byte, rows []C.fabcommit_scanned_row) {
	for _, row := range rows {
		version := Version{uint64(row.block), uint32(row.tx)}
		r.taken = append(r.taken, Row{part(pool, row.key), part(pool, row.value), version})
	}
	if len(r.taken) > 0 {
		r.start = leastAbove(r.taken[len(r.taken)-1].Key)
	}
}

// leastAbove returns the least bound above a key. Nothing is above a longest key of bytes 255: then it is the key, after
// which no row is left.
func leastAbove(key []byte) []byte {
	if len(key) < longest {
		return append(copied(key), 0)
	}
	kept := bytes.TrimRight(key, "\xff")
	if len(kept) == 0 {
		return key
	}
	bound := copied(kept)
	bound[len(bound)-1]++
	return bound
}
