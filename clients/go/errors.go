package fabcommit

// #include "fabcommit.h"
import "C"

import "fmt"

// Refused tells why a call was refused. Nothing has changed then.
type Refused struct {
	// Code is the header's number of the reason.
	Code uint32
	// Number and Got are, of ErrWrongNumber, the number that is next and the one that the block has. Of ErrMalformed
	// Got is the fault of the bytes, 1 to 6, B1 to B6 of the command line.
	Number, Got uint64
}

// The reasons, for errors.Is.
var (
	ErrMalformed     = Refused{Code: C.FABCOMMIT_MALFORMED}
	ErrWrongNumber   = Refused{Code: C.FABCOMMIT_WRONG_NUMBER}
	ErrWrongPrevious = Refused{Code: C.FABCOMMIT_WRONG_PREVIOUS}
	ErrWrongDataHash = Refused{Code: C.FABCOMMIT_WRONG_DATA_HASH}
	ErrOldVersion    = Refused{Code: C.FABCOMMIT_OLD_VERSION}
	ErrMemory        = Refused{Code: C.FABCOMMIT_MEMORY}
	ErrClosed        = Refused{Code: C.FABCOMMIT_CLOSED}
	ErrNoText        = Refused{Code: C.FABCOMMIT_NO_TEXT}
	ErrNoChannel     = Refused{Code: C.FABCOMMIT_NO_CHANNEL}
	ErrNoKeys        = Refused{Code: C.FABCOMMIT_NO_KEYS}
	ErrNoName        = Refused{Code: C.FABCOMMIT_NO_NAME}
	ErrNone          = Refused{Code: C.FABCOMMIT_NONE}
	ErrShared        = Refused{Code: C.FABCOMMIT_SHARED}
	// ErrInterface refuses to open a ledger of a library with another interface; Number and Got are ours and its.
	ErrInterface = Refused{Code: 1 << 16}
)

var said = map[uint32]string{
	ErrMalformed.Code:     "the bytes encode no block",
	ErrWrongNumber.Code:   "the block's number isn't the next one",
	ErrWrongPrevious.Code: "the block's previous hash isn't the last header hash",
	ErrWrongDataHash.Code: "the block's data hash isn't that of its transactions",
	ErrOldVersion.Code:    "a block of version 1 after one of version 2",
	ErrMemory.Code:        "out of memory",
	ErrClosed.Code:        "the ledger is closed",
	ErrNoText.Code:        "a text isn't UTF-8",
	ErrNoChannel.Code:     "the text is no channel's",
	ErrNoKeys.Code:        "the text is no key book",
	ErrNoName.Code:        "a namespace or chaincode is no name, a key no key, or an id no id",
	ErrNone.Code:          "there is no such row, block, policy or use",
	ErrShared.Code:        "another Ledger shares the ledger, so that it takes no block",
	ErrInterface.Code:     "the library has another interface than this package",
}

func (r Refused) Error() string {
	text, known := said[r.Code]
	switch {
	case !known:
		return fmt.Sprintf("fabcommit: code %d", r.Code)
	case r.Code == ErrMalformed.Code && r.Got > 0:
		return fmt.Sprintf("fabcommit: %s: fault %d", text, r.Got)
	case r.Code == ErrWrongNumber.Code, r.Code == ErrInterface.Code:
		return fmt.Sprintf("fabcommit: %s: %d instead of %d", text, r.Got, r.Number)
	}
	return "fabcommit: " + text
}

// Is compares the codes.
func (r Refused) Is(target error) bool {
	other, is := target.(Refused)
	return is && other.Code == r.Code
}

// refusal returns nil if the code is that of success.
func refusal(code C.uint32_t) error {
	if code == C.FABCOMMIT_OK {
		return nil
	}
	return Refused{Code: uint32(code)}
}
