// A made-up network of three organizations, each with a root certificate, a client and a peer, and a block that they sign by ECDSA.
package main

import (
	"bytes"
	"crypto/ecdsa"
	"crypto/elliptic"
	"crypto/rand"
	"crypto/sha256"
	"crypto/x509"
	"crypto/x509/pkix"
	"encoding/binary"
	"encoding/hex"
	"fabcommit"
	"fmt"
	"math/big"
	"os"
	"runtime"
	"time"
)

const organizations = 3

const channelText = "channel made\nchaincode cc OutOf(2,'Org0.peer','Org1.peer','Org2.peer')\n"

type member struct {
	identity []byte
	key      *ecdsa.PrivateKey
}

type network struct {
	clients, peers []member
	certificates   map[string]*x509.Certificate // by identity bytes
}

func must[T any](value T, err error) T {
	if err != nil {
		fmt.Fprintln(os.Stderr, err)
		os.Exit(2)
	}
	return value
}

func counted(width int, part []byte) []byte {
	length := make([]byte, 8)
	binary.BigEndian.PutUint64(length, uint64(len(part)))
	return append(length[8-width:], part...)
}

func identity(org string, role byte, label string) []byte {
	return bytes.Join([][]byte{counted(1, []byte(org)), {role}, counted(1, []byte(label))}, nil)
}

func certify(name string, isRoot bool, signer *x509.Certificate, signerKey *ecdsa.PrivateKey) (*x509.Certificate, *ecdsa.PrivateKey) {
	key := must(ecdsa.GenerateKey(elliptic.P256(), rand.Reader))
	made := &x509.Certificate{
		SerialNumber: big.NewInt(time.Now().UnixNano()), Subject: pkix.Name{CommonName: name}, NotBefore: time.Now().Add(-time.Hour),
		NotAfter: time.Now().Add(time.Hour), KeyUsage: x509.KeyUsageDigitalSignature, BasicConstraintsValid: true, IsCA: isRoot,
	}
	if isRoot {
		made.KeyUsage, signer, signerKey = x509.KeyUsageCertSign, made, key
	}
	return must(x509.ParseCertificate(must(x509.CreateCertificate(rand.Reader, made, signer, &key.PublicKey, signerKey)))), key
}

// makeNetwork makes the members' certificates, and checks each against its organization's root.
func makeNetwork() *network {
	n := &network{certificates: map[string]*x509.Certificate{}}
	for i := 0; i < organizations; i++ {
		org := fmt.Sprintf("Org%d", i)
		root, rootKey := certify(org, true, nil, nil)
		roots := x509.NewCertPool()
		roots.AddCert(root)
		join := func(role byte, label string) member {
			certificate, key := certify(org+"."+label, false, root, rootKey)
			must(certificate.Verify(x509.VerifyOptions{Roots: roots}))
			m := member{identity(org, role, label), key}
			n.certificates[string(m.identity)] = certificate
			return m
		}
		n.clients, n.peers = append(n.clients, join(1, "client")), append(n.peers, join(2, "peer"))
	}
	return n
}

func (m member) sign(message []byte) []byte {
	digest := sha256.Sum256(message)
	return counted(2, must(ecdsa.SignASN1(rand.Reader, m.key, digest[:])))
}

func (n *network) verify(r fabcommit.Request) bool {
	certificate, there := n.certificates[string(identity(string(r.Org), byte(r.Role), string(r.Label)))]
	digest := sha256.Sum256(r.Message)
	return there && ecdsa.VerifyASN1(certificate.PublicKey.(*ecdsa.PublicKey), digest[:], r.Signature)
}

// tx writes one key, endorsed by two peers.
func (n *network) tx(i int) []byte {
	creator, nonce := n.clients[i%organizations], []byte(fmt.Sprintf("nonce%d", i))
	digest := sha256.Sum256(append(append([]byte{}, nonce...), creator.identity...))
	write := bytes.Join([][]byte{counted(2, []byte(fmt.Sprintf("key%d", i))), {1}, counted(4, make([]byte, 100))}, nil)
	body := bytes.Join([][]byte{
		counted(1, []byte("made")), []byte(hex.EncodeToString(digest[:])), creator.identity, counted(1, nonce), counted(1, []byte("cc")),
		{0, 1}, counted(1, []byte("cc")), {0, 0}, {0, 0}, {0, 1}, write, {0, 0},
	}, nil)
	signed := append(append([]byte{}, body...), 2)
	for k := 0; k < 2; k++ {
		peer := n.peers[(i+k)%organizations]
		signature := peer.sign(append(append([]byte{}, body...), peer.identity...))
		signed = append(append(signed, peer.identity...), signature...)
	}
	return append(signed, creator.sign(signed)...)
}

func (n *network) block(size int) []byte {
	data, txs := sha256.New(), []byte{}
	for i := 0; i < size; i++ {
		tx := n.tx(i)
		data.Write(tx)
		txs = append(txs, counted(4, tx)...)
	}
	count := make([]byte, 4)
	binary.BigEndian.PutUint32(count, uint32(size))
	return bytes.Join([][]byte{[]byte("FBK1"), make([]byte, 8), {0}, data.Sum(nil), count, txs}, nil)
}

// timeMade has one block checked and handed in five times, and tells each time, and the library's part of it.
func timeMade(size int) {
	n := makeNetwork()
	block := n.block(size)
	for turn := 0; turn < 5; turn++ {
		ledger := must(fabcommit.Open([]byte(channelText), nil))
		began := time.Now()
		listing := must(fabcommit.List(block))
		listed := time.Now()
		listing.Answer(n.verify)
		checking := time.Since(listed)
		receipt := must(ledger.SubmitListing(listing))
		whole := time.Since(began)
		valid := 0
		for _, flag := range must(ledger.Flags(receipt.Number)) {
			if flag == 0 {
				valid++
			}
		}
		ours := whole - checking
		fmt.Printf("%d transactions, %d valid, %d processors: %v, of which the library %v (%.1f %%)\n",
			size, valid, runtime.GOMAXPROCS(0), whole, ours, 100*float64(ours)/float64(whole))
		ledger.Close()
	}
}
