// Package fabcommit is the ledger of a committing peer, modelled on Hyperledger Fabric's: it takes blocks, and decides
// the flag of each transaction and what the state is. The library below it, declared by include/fabcommit.h, is proved.
//
// A Ledger may be used by several goroutines: its calls wait for each other. To query at the same time, give each
// goroutine a Ledger of its own by Share. To check signatures by other means than the ledger's keys, list them by List,
// which needs no ledger, have them answered, and call SubmitListing.
//
// Each error is a Refused, which errors.Is compares with ErrShared and its like by the code alone.
//
// The package is linked by pkg-config, or, with the build tag nopkgconfig, by CGO_CFLAGS and CGO_LDFLAGS alone.
package fabcommit

// #cgo !nopkgconfig pkg-config: fabcommit
// #include "fabcommit.h"
import "C"

// The version of the library's interface that this package calls.
const ownInterface = C.FABCOMMIT_INTERFACE

// Versions are those of the library's interface, and of the first and last blocks that it reads.
type Versions struct{ Interface, FirstBlock, LastBlock uint32 }

// LibraryVersions returns those of the library that is linked.
func LibraryVersions() Versions {
	var told C.fabcommit_version_numbers
	C.fabcommit_versions(&told)
	return Versions{uint32(told._interface), uint32(told.first_block), uint32(told.last_block)}
}
