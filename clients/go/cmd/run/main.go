// run [-verify] CHANNEL KEYS BLOCK..: prints the lines of `fabcommit run`. With -verify the signatures are checked here, by HMAC as
// the key book does, in goroutines, and the library is given no keys. With -ecdsa N it times a made block of N transactions (made.go).
package main

import (
	"bytes"
	"crypto/hmac"
	"crypto/sha256"
	"encoding/hex"
	"errors"
	"fabcommit"
	"flag"
	"fmt"
	"net/url"
	"os"
	"strings"
)

// wordBytes gives what a word spells: %XX is a byte, % alone no bytes.
func wordBytes(word string) string {
	if word == "%" {
		return ""
	}
	spelled, _ := url.PathUnescape(word)
	return spelled
}

func verifier(text []byte) fabcommit.Verify {
	keys := map[string][]byte{}
	for _, line := range bytes.Split(text, []byte("\n")) {
		words := bytes.Fields(line)
		if len(words) == 2 && words[0][0] != '#' {
			key, _ := hex.DecodeString(string(words[1]))
			parts := strings.SplitN(string(words[0]), ":", 3)
			keys[parts[0]+":"+parts[1]+":"+wordBytes(parts[2])] = key
		}
	}
	return func(r fabcommit.Request) bool {
		key, there := keys[string(r.Org)+":"+r.Role.String()+":"+string(r.Label)]
		code := hmac.New(sha256.New, key)
		code.Write(r.Message)
		return there && hmac.Equal(code.Sum(nil), r.Signature)
	}
}

func read(path string) []byte {
	bytes, err := os.ReadFile(path)
	if err != nil {
		fmt.Fprintln(os.Stderr, err)
		os.Exit(2)
	}
	return bytes
}

func refusal(place int, r fabcommit.Refused) string {
	switch {
	case errors.Is(r, fabcommit.ErrMalformed):
		return fmt.Sprintf("refused %d C1 B%d", place, r.Got)
	case errors.Is(r, fabcommit.ErrWrongNumber):
		return fmt.Sprintf("refused %d C2 want %d got %d", place, r.Number, r.Got)
	case errors.Is(r, fabcommit.ErrOldVersion):
		return fmt.Sprintf("refused %d C8", place)
	}
	return fmt.Sprintf("refused %d C%d", place, r.Code)
}

func main() {
	verified := flag.Bool("verify", false, "check the signatures here")
	size := flag.Int("ecdsa", 0, "time a block of this many transactions, signed by ECDSA")
	flag.Parse()
	if *size > 0 {
		timeMade(*size)
		return
	}
	channel, keys := read(flag.Arg(0)), read(flag.Arg(1))
	verify := verifier(keys)
	if *verified {
		keys = nil
	}
	ledger, err := fabcommit.Open(channel, keys)
	if err != nil {
		fmt.Fprintln(os.Stderr, err)
		os.Exit(2)
	}
	defer ledger.Close()
	status := 0
	for i, path := range flag.Args()[2:] {
		block := read(path)
		var receipt fabcommit.Receipt
		if *verified {
			receipt, err = ledger.SubmitBy(block, verify)
		} else {
			receipt, err = ledger.Submit(block)
		}
		var refused fabcommit.Refused
		if errors.As(err, &refused) {
			fmt.Println(refusal(i+1, refused))
			status = 1
			continue
		}
		flags := must(ledger.Flags(receipt.Number))
		fmt.Printf("accepted %d %x", receipt.Number, receipt.HeaderHash)
		for _, f := range flags {
			fmt.Printf(" %d", uint8(f))
		}
		fmt.Println()
	}
	if status != 0 {
		ledger.Close()
		os.Exit(status)
	}
}
