package fabcommit_test

import (
	"bytes"
	"errors"
	"fabcommit"
	"fmt"
	"os"
	"reflect"
	"sync"
	"testing"
)

func must[T any](value T, err error) T {
	if err != nil {
		panic(err)
	}
	return value
}

func file(name string) []byte { return must(os.ReadFile("../../sample/" + name)) }

func block(number int) []byte { return file(fmt.Sprintf("block%d.blk", number)) }

// committed returns the ledger of the sample's first blocks, and their receipts.
func committed(blocks int) (*fabcommit.Ledger, []fabcommit.Receipt) {
	ledger := must(fabcommit.Open(file("channel.txt"), file("keys.txt")))
	receipts := make([]fabcommit.Receipt, blocks)
	for i := range receipts {
		receipts[i] = must(ledger.Submit(block(i)))
	}
	return ledger, receipts
}

func equal(t *testing.T, got, want any) {
	t.Helper()
	if !reflect.DeepEqual(got, want) {
		t.Errorf("%v instead of %v", got, want)
	}
}

func is(t *testing.T, err, want error) {
	t.Helper()
	if !errors.Is(err, want) {
		t.Errorf("the error %v instead of %v", err, want)
	}
}

func scanned(ledger *fabcommit.Ledger, start, end string) ([]fabcommit.Row, error) {
	var all []fabcommit.Row
	rows := ledger.Scan("cc", []byte(start), []byte(end))
	for rows.Next() {
		all = append(all, rows.Row())
	}
	return all, rows.Err()
}

func TestBlocks(t *testing.T) {
	ledger, receipts := committed(6)
	defer ledger.Close()
	equal(t, must(ledger.Height()), uint64(6))
	for number, receipt := range receipts {
		equal(t, must(ledger.Block(uint64(number))), receipt)
		equal(t, len(must(ledger.Flags(uint64(number)))), receipt.Flags)
	}
	equal(t, must(ledger.Flags(0)), []fabcommit.Flag{0, 0, 10, 9, 2})
	equal(t, fabcommit.Flag(9).String(), "DUPLICATE_TXID")
	_, err := ledger.Block(6)
	is(t, err, fabcommit.ErrNone)
	_, err = ledger.Flags(6)
	is(t, err, fabcommit.ErrNone)
}

func TestRefusals(t *testing.T) {
	ledger, _ := committed(6)
	defer ledger.Close()
	_, err := ledger.Submit([]byte("x"))
	equal(t, err, error(fabcommit.Refused{Code: fabcommit.ErrMalformed.Code, Number: 0, Got: 1}))
	_, err = ledger.Explain([]byte("x"))
	is(t, err, fabcommit.ErrMalformed)
	_, err = fabcommit.List([]byte("x"))
	is(t, err, fabcommit.ErrMalformed)
	_, err = ledger.Submit(block(1))
	equal(t, err, error(fabcommit.Refused{Code: fabcommit.ErrWrongNumber.Code, Number: 6, Got: 1}))
	_, err = ledger.Get("no name", []byte("k"))
	is(t, err, fabcommit.ErrNoName)
	rows := ledger.Scan("no name", nil, nil)
	equal(t, rows.Next(), false)
	is(t, rows.Err(), fabcommit.ErrNoName)
	equal(t, must(ledger.Height()), uint64(6))
	_, err = fabcommit.Open([]byte("none"), nil)
	is(t, err, fabcommit.ErrNoChannel)
	_, err = fabcommit.Open([]byte("\xff"), nil)
	is(t, err, fabcommit.ErrNoText)
	_, err = fabcommit.Open(file("channel.txt"), []byte("none"))
	is(t, err, fabcommit.ErrNoKeys)
}

func TestRowsAndHistoriesFit(t *testing.T) {
	ledger, _ := committed(6)
	defer ledger.Close()
	all := must(scanned(ledger, "", ""))
	equal(t, len(must(scanned(ledger, "car3", "car4"))), 1)
	for i, row := range all {
		equal(t, string(row.Key), []string{"car2", "car3", "car4"}[i])
		equal(t, must(ledger.Get("cc", row.Key)), row)
		newest := must(ledger.History("cc", row.Key))[0]
		equal(t, newest.Value, row.Value)
		equal(t, newest.Version, row.Version)
		equal(t, must(ledger.FirstUse(newest.ID)).Version, row.Version)
	}
	writes := must(ledger.History("cc", []byte("car1")))
	equal(t, len(writes), 4)
	equal(t, writes[0].Value, []byte(nil))
	_, err := ledger.Get("cc", []byte("car1"))
	is(t, err, fabcommit.ErrNone)
	_, err = ledger.FirstUse(bytes.Repeat([]byte("0"), 64))
	is(t, err, fabcommit.ErrNone)
	equal(t, len(must(ledger.History("cc", []byte("never")))), 0)
}

func TestPolicies(t *testing.T) {
	ledger, _ := committed(6)
	defer ledger.Close()
	equal(t, must(ledger.Definition("cc")), "OR('Org1.peer','Org2.peer','Org1.admin')")
	equal(t, must(ledger.KeyPolicy("cc", []byte("car2"))), "AND('Org1.peer','Org2.peer')")
	_, err := ledger.Definition("none")
	is(t, err, fabcommit.ErrNone)
	_, err = ledger.KeyPolicy("cc", []byte("car3"))
	is(t, err, fabcommit.ErrNone)
}

func TestAnswersStandForKeys(t *testing.T) {
	_, receipts := committed(6)
	ledger := must(fabcommit.Open(file("channel.txt"), nil))
	defer ledger.Close()
	isLong := func(r fabcommit.Request) bool { return len(r.Signature) == 32 }
	for i, receipt := range receipts {
		equal(t, must(ledger.SubmitBy(block(i), isLong)), receipt)
	}
	listing := must(fabcommit.List(file("every_flag.blk")))
	listing.Answer(isLong)
	reasons := must(ledger.ExplainListing(listing))
	equal(t, reasons[5].Kind, fabcommit.UsedID)
	equal(t, *reasons[5].Used, fabcommit.Use{})
	for place := 0; place < listing.Len(); place++ {
		listing.Accept(place, false)
	}
	equal(t, must(ledger.ExplainListing(listing))[5].Kind, fabcommit.BadSignature)
}

// Each goroutine has a Ledger of its own, and all of them use one more.
func TestQueriesAtTheSameTime(t *testing.T) {
	ledger, _ := committed(6)
	defer ledger.Close()
	want := must(scanned(ledger, "", ""))
	var done sync.WaitGroup
	for i := 0; i < 4; i++ {
		share := must(ledger.Share())
		done.Add(1)
		go func() {
			defer done.Done()
			defer share.Close()
			for turn := 0; turn < 300; turn++ {
				for _, one := range []*fabcommit.Ledger{share, ledger} {
					if rows, err := scanned(one, "", ""); err != nil || !reflect.DeepEqual(rows, want) {
						t.Errorf("%v, %v", rows, err)
					}
				}
			}
		}()
	}
	done.Wait()
}

func TestASharedLedgerTakesNoBlock(t *testing.T) {
	ledger, _ := committed(5)
	share := must(ledger.Share())
	for _, one := range []*fabcommit.Ledger{ledger, share} {
		_, err := one.Submit(block(5))
		is(t, err, fabcommit.ErrShared)
	}
	ledger.Close()
	ledger.Close()
	_, err := ledger.Height()
	is(t, err, fabcommit.ErrClosed)
	_, err = ledger.Share()
	is(t, err, fabcommit.ErrClosed)
	equal(t, must(share.Submit(block(5))).Number, uint64(5))
	share.Close()
}
