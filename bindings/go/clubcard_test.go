package clubcard

import (
	"bytes"
	"crypto/sha256"
	"encoding/binary"
	"errors"
	"fmt"
	"os"
	"sync"
	"testing"
)

// The store that the repository ships (README.md, "Try it"), and the bytes before its first part.
const (
	shipped = "../../crates/clubcard/data/one_revoked.store"
	head    = 10
)

var (
	issuer = key(0x11)
	other  = key(0x22)
	seen   = Sighting{key(0xaa), 1700000000000}
	late   = Sighting{key(0xaa), 1700000001001}
)

// key is 32 times the same byte.
func key(octet byte) (made [32]byte) {
	for place := range made {
		made[place] = octet
	}
	return made
}

func shippedBytes(t testing.TB) []byte {
	read, err := os.ReadFile(shipped)
	if err != nil {
		t.Fatal(err)
	}
	return read
}

func shippedStore(t testing.TB) *Store {
	store, err := Open(shippedBytes(t))
	if err != nil {
		t.Fatal(err)
	}
	return store
}

// mustRefuse tests that an error is of this refusal, at this place.
func mustRefuse(t *testing.T, err error, refusal Refusal, at uint64, field string) {
	t.Helper()
	var refused *Refused
	if !errors.As(err, &refused) || *refused != (Refused{refusal, at, field}) || !errors.Is(err, refusal) {
		t.Errorf("%v, and not %v at %d in %q", err, refusal, at, field)
	}
}

func TestInterface(t *testing.T) {
	if LibraryInterface() != Interface {
		t.Errorf("the library has the interface %d", LibraryInterface())
	}
}

func TestVerdicts(t *testing.T) {
	store := shippedStore(t)
	if store.Facts() != (Facts{1, 1}) {
		t.Error(store.Facts())
	}
	queries := []Query{
		{issuer, []byte{5}, []Sighting{seen}},
		{issuer, []byte{5}, []Sighting{late}},
		{issuer, []byte{5}, []Sighting{late, seen}},
		{other, []byte{5}, []Sighting{seen}},
		{issuer, []byte{5}, nil},
	}
	verdicts := []Verdict{Revoked, NotCovered, Revoked, NotEnrolled, NotCovered}
	for place, answer := range store.AskEach(queries) {
		alone, err := store.Ask(queries[place].Issuer, queries[place].Serial, queries[place].Sightings)
		if err != nil || answer.Err != nil || answer.Verdict != verdicts[place] || alone != verdicts[place] {
			t.Errorf("query %d: %v, alone %v, and not %v", place, answer, alone, verdicts[place])
		}
	}
	if len(store.AskEach(nil)) != 0 || fmt.Sprint(NotEnrolled) != "not-enrolled" {
		t.Error("an answer to no query, or another word")
	}
}

func TestSerials(t *testing.T) {
	store := shippedStore(t)
	for _, length := range []int{0, 33, 70000} {
		serial := make([]byte, length)
		verdict, err := store.Ask(issuer, serial, []Sighting{seen})
		mustRefuse(t, err, BadSerial, 0, "")
		answer := store.AskEach([]Query{{issuer, serial, []Sighting{seen}}})[0]
		mustRefuse(t, answer.Err, BadSerial, 0, "")
		if verdict != 0 || answer.Verdict != 0 {
			t.Error("a verdict beside an error")
		}
	}
}

func TestCertificates(t *testing.T) {
	for _, cert := range [][]byte{nil, {0x30, 0}} {
		_, err := shippedStore(t).AskCert(cert, cert)
		mustRefuse(t, err, CertMalformed, 0, "")
	}
}

func TestPlaces(t *testing.T) {
	for _, by := range []By{ByIssuer, ByIdentity} {
		want := map[By]uint64{ByIssuer: 49925, ByIdentity: 44354}[by]
		if place, err := Place(by, issuer, []byte{5}, 65536); place != want || err != nil {
			t.Errorf("the place %d (%v), and not %d", place, err, want)
		}
	}
	_, err := Place(ByIssuer, issuer, nil, 0)
	mustRefuse(t, err, BadSerial, 0, "")
	for _, count := range []uint64{0, 65537, 1<<32 + 1} {
		_, err := Place(ByIdentity, issuer, []byte{5}, count)
		mustRefuse(t, err, BadPlaces, 0, "")
	}
	_, err = Place(0, issuer, []byte{5}, 1)
	mustRefuse(t, err, BadPlaces, 0, "")
}

func TestCoverage(t *testing.T) {
	store := shippedStore(t)
	if until, isCovered := store.CoveredUntil(seen.Log); until != 1700000001000 || !isCovered {
		t.Error(until, isCovered)
	}
	if until, isCovered := store.CoveredUntil(issuer); until != 0 || isCovered {
		t.Error(until, isCovered)
	}
}

func TestNoStore(t *testing.T) {
	whole := shippedBytes(t)
	_, err := Open(whole[:len(whole)-1])
	mustRefuse(t, err, LayoutShort, 147, "part.trailer")
	_, err = Open(nil)
	mustRefuse(t, err, LayoutShort, 0, "store.magic")
	_, err = Open(append(whole[:len(whole):len(whole)], 0))
	mustRefuse(t, err, LayoutValue, 179, "end")
	if err.Error() != "a field fails its test, end at 179" {
		t.Error(err)
	}
}

func TestParts(t *testing.T) {
	store, part := shippedStore(t), shippedBytes(t)[head:]
	checked, err := CheckPart(part)
	if err != nil || checked.IsDelta || checked.Epoch != 1 || checked.Ranges != 1 || checked.Issuers != 1 ||
		!bytes.Equal(checked.Trailer[:], part[len(part)-32:]) {
		t.Error(checked, err)
	}
	_, err = store.Install(part)
	mustRefuse(t, err, NotDelta, 0, "")
	part[10] ^= 1
	_, err = CheckPart(part)
	mustRefuse(t, err, LayoutDigest, 137, "part.trailer")
	_, err = store.Install(part)
	mustRefuse(t, err, LayoutDigest, 137, "part.trailer")
	_, err = store.Install(nil)
	mustRefuse(t, err, LayoutShort, 0, "part.magic")
}

// delta is one behind the shipped store, of one range and no block, by the layout of docs/FORMATS.md.
func delta(parent []byte) []byte {
	octets := binary.BigEndian.AppendUint64([]byte("CLUBCARD\x01\x01"), 2)
	octets = append(append(append(octets, parent...), 0, 1), seen.Log[:]...)
	octets = binary.BigEndian.AppendUint64(binary.BigEndian.AppendUint64(octets, seen.Time), seen.Time+2000)
	octets = append(octets, 0, 0, 0, 0)
	trailer := sha256.Sum256(octets)
	return append(octets, trailer[:]...)
}

func TestInstall(t *testing.T) {
	before := shippedBytes(t)
	part := delta(before[len(before)-32:])
	if checked, err := CheckPart(part); err != nil || !checked.IsDelta || checked.Epoch != 2 || checked.Issuers != 0 {
		t.Error(checked, err)
	}
	made, err := shippedStore(t).Install(part)
	if err != nil {
		t.Fatal(err)
	}
	if !bytes.Equal(made, append(append(append([]byte{}, before[:head-1]...), 2), append(before[head:], part...)...)) {
		t.Errorf("another store, %x", made)
	}
	newer, err := Open(made)
	if err != nil {
		t.Fatal(err)
	}
	until, _ := newer.CoveredUntil(seen.Log)
	was, _ := newer.Ask(issuer, []byte{5}, []Sighting{seen})
	is, _ := newer.Ask(issuer, []byte{5}, []Sighting{late})
	if newer.Facts() != (Facts{2, 2}) || until != seen.Time+2000 || was != Revoked || is != NotEnrolled {
		t.Error(newer.Facts(), until, was, is)
	}
	_, err = newer.Install(part)
	mustRefuse(t, err, WrongParent, 0, "")
}

func TestGoroutines(t *testing.T) {
	store := shippedStore(t)
	var group sync.WaitGroup
	for each := 0; each < 8; each++ {
		group.Add(1)
		go func() {
			defer group.Done()
			for round := 0; round < 100; round++ {
				if verdict, err := store.Ask(issuer, []byte{5}, []Sighting{seen}); verdict != Revoked || err != nil {
					t.Error(verdict, err)
				}
			}
		}()
	}
	group.Wait()
}

func Example() {
	octets, err := os.ReadFile(shipped)
	if err != nil {
		panic(err)
	}
	store, err := Open(octets)
	if err != nil {
		panic(err)
	}
	verdict, err := store.Ask(issuer, []byte{5}, []Sighting{seen})
	if err != nil {
		panic(err)
	}
	switch verdict {
	case Good:
		fmt.Println("not revoked")
	case Revoked:
		fmt.Println("revoked")
	default:
		// The store doesn't know, and the caller settles what then.
		fmt.Println("unknown")
	}
	// Output: revoked
}
