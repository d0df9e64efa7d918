// explain CHANNEL KEYS BLOCK..: prints the lines of `fabcommit explain`, the signatures checked by the library.
package main

import (
	"fabcommit"
	"fmt"
	"log"
	"os"
	"strings"
)

// word returns printable bytes as they are, and others as %XX.
func word(octets []byte) string {
	if len(octets) == 0 {
		return "%"
	}
	var text strings.Builder
	for _, octet := range octets {
		if octet > 32 && octet < 127 && octet != '%' {
			text.WriteByte(octet)
		} else {
			fmt.Fprintf(&text, "%%%02X", octet)
		}
	}
	return text.String()
}

func who(identity fabcommit.Identity) string {
	return fmt.Sprintf("%s:%v:%s", word(identity.Org), identity.Role, word(identity.Label))
}

func version(seen *fabcommit.Version) string {
	if seen == nil {
		return "absent"
	}
	return fmt.Sprintf("%d %d", seen.Block, seen.Tx)
}

func lack(lack *fabcommit.Lack) string {
	words := []string{lack.Policy}
	for _, identity := range lack.Signers {
		words = append(words, who(identity))
	}
	for i, identity := range lack.Refused {
		if i == 0 {
			words = append(words, "refused")
		}
		words = append(words, who(identity))
	}
	if lack.Missing != nil {
		role := "member"
		if lack.Missing.Role != nil {
			role = lack.Missing.Role.String()
		}
		words = append(words, "missing "+word(lack.Missing.Org)+"."+role)
	}
	if lack.AnotherOrder {
		words = append(words, "order")
	}
	return strings.Join(words, " ")
}

var textFaults = []string{"", "too-large", "syntax", "role", "threshold", "too-deep"}

// conflict returns the versions, and who wrote the key.
func conflict(r fabcommit.Reason) (versions, by string) {
	if r.By != nil {
		by = fmt.Sprintf(" by %d", *r.By)
	}
	return fmt.Sprintf("was %s is %s", version(r.Read), version(r.There)), by
}

// words returns those after the flag, each with a space before it.
func words(r fabcommit.Reason) string {
	name, key, fault := word(r.Name), word(r.Key), textFaults[r.TextFault]
	place := fmt.Sprintf("%s %s %s key %s", name, word(r.Start), word(r.End), key)
	switch r.Kind {
	case fabcommit.BadSignature:
		return " creator " + who(*r.Creator)
	case fabcommit.OtherChannel:
		return " channel " + name
	case fabcommit.OtherID:
		return " wanted " + word(r.ID)
	case fabcommit.UsedID:
		return fmt.Sprintf(" used %s %d %v", version(&r.Used.Version), r.Used.Flag, r.Used.Flag)
	case fabcommit.NotAlone:
		return " not-alone"
	case fabcommit.NoAdminPolicy:
		return " no-admin-policy"
	case fabcommit.UpdateUndefined, fabcommit.Undefined:
		return " undefined " + name
	case fabcommit.UpdateUnreadable:
		return " policy " + fault
	case fabcommit.AdminUnsatisfied:
		return " admin " + lack(r.Lack)
	case fabcommit.NamespaceRepeats:
		return " repeated " + name
	case fabcommit.ReadRepeats:
		return " repeated " + name + " reads " + key
	case fabcommit.WriteRepeats:
		return " repeated " + name + " writes " + key
	case fabcommit.PolicyWriteRepeats:
		return " repeated " + name + " policies " + key
	case fabcommit.ResultFalls:
		return fmt.Sprintf(" fallen %s range %d result %d", place, r.RangePlace, r.ResultPlace)
	case fabcommit.ResultLeaves:
		return fmt.Sprintf(" outside %s range %d result %d", place, r.RangePlace, r.ResultPlace)
	case fabcommit.PolicyUnreadable:
		return " policy " + name + " " + key + " " + fault
	case fabcommit.Touched:
		return fmt.Sprintf(" touched %s %s %d", name, key, *r.By)
	case fabcommit.KeyUnsatisfied:
		return " key " + name + " " + key + " " + lack(r.Lack)
	case fabcommit.ChaincodeUnsatisfied:
		return " chaincode " + name + " " + key + " " + lack(r.Lack)
	case fabcommit.NamedUnsatisfied:
		return " named " + name + " " + lack(r.Lack)
	case fabcommit.ReadConflict:
		versions, by := conflict(r)
		return " read " + name + " " + key + " " + versions + by
	case fabcommit.PhantomConflict:
		versions, by := conflict(r)
		part := "part"
		if r.Exhausted {
			part = "all"
		}
		return " range " + place + " " + versions + " " + part + by
	}
	return ""
}

func must[T any](value T, err error) T {
	if err != nil {
		log.Fatal(err)
	}
	return value
}

func main() {
	var files [][]byte
	for _, path := range os.Args[1:] {
		files = append(files, must(os.ReadFile(path)))
	}
	if len(files) < 3 {
		log.Fatal("explain CHANNEL KEYS BLOCK..")
	}
	ledger := must(fabcommit.Open(files[0], files[1]))
	last := len(files) - 1
	for _, block := range files[2:last] {
		must(ledger.Submit(block))
	}
	reasons := must(ledger.Explain(files[last]))
	// whose receipt has the block's header hash
	receipt := must(ledger.Submit(files[last]))
	fmt.Printf("block %d %x\n", receipt.Number, receipt.HeaderHash)
	for place, reason := range reasons {
		fmt.Printf("%d %d %v%s\n", place, reason.Flag, reason.Flag, words(reason))
	}
}
