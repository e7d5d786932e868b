// Package clubcard says whether a store of pushed certificate revocation says that a certificate is revoked, asked in
// the caller's process, with nothing asked over a network: a layer over the library for C, which it links statically
// (release/libclubcard.a of the project, or that of a folder that CGO_LDFLAGS names by -L). What the library answers is
// proved, and bindings/c/clubcard.h says it in words; this package isn't.
//
// What a verdict means: of a certificate that one of the jobs behind the store's parts accepted (and that was kept,
// where the chain began anew), asked with one or more sightings of its accepted entries and no other, it is Revoked
// where the issuer's CRL lists the serial in an epoch since the certificate was first accepted, and else Good. Of any
// other certificate, or asked otherwise, either of the two may come, whatever the CRL says: so of one that no job
// accepted, since it was never shown to the publisher, or shown late, when an earlier job covered its sighting and
// enrolled its issuer. No call can tell these from the others.
//
// A store's bytes, issuers and certificates must be authentic: no signature is checked.
package clubcard

/*
#cgo CFLAGS: -I${SRCDIR}/../c
#cgo LDFLAGS: -L${SRCDIR}/../../release -l:libclubcard.a
#include "clubcard.h"
*/
import "C"

import (
	"fmt"
	"unsafe"
)

// Interface is the version of the library's interface that this package speaks.
const Interface = C.CLUBCARD_INTERFACE

// maxSerial is the most octets of a serial.
const maxSerial = 32

// By is by what a history is cut: by issuers, whose certificates stay together, or by identities.
type By uint32

// The ways to cut a history.
const (
	ByIssuer   By = C.CLUBCARD_BY_ISSUER
	ByIdentity By = C.CLUBCARD_BY_IDENTITY
)

// Sighting is when a log saw a certificate.
type Sighting struct {
	Log  [32]byte // the log's id (RFC 6962, 3.2)
	Time uint64   // milliseconds since 1970
}

// Query is a certificate that is asked about.
type Query struct {
	Issuer    [32]byte // the SHA-256 of the issuer's DER SubjectPublicKeyInfo
	Serial    []byte   // the contents octets of serialNumber, 1 to 32 of them
	Sightings []Sighting
}

// Answer is a verdict, or why there is none.
type Answer struct {
	Verdict Verdict // 0 where there is none
	Err     error
}

// Facts are what a store holds.
type Facts struct {
	Parts       uint64 // how many parts, 1 to 64
	NewestEpoch uint64 // the epoch of the newest one
}

// Part is what a part holds.
type Part struct {
	IsDelta bool // whether it is a delta, and else a snapshot
	Epoch   uint64
	Ranges  uint64   // how many ranges of logs it covers
	Issuers uint64   // how many issuers it has a block of
	Trailer [32]byte // the SHA-256 of its bytes before the last 32, which these are
}

// Store is a store that was opened: its bytes, which aren't copied, and an index of them, by which each question reads
// no more than it needs. Any number of goroutines may ask. Nobody writes to the bytes as long as the store is asked.
type Store struct {
	bytes []byte
	index []uint32
	facts Facts
}

// Open opens a store: it reads the bytes whole, and tests them. Where they aren't a store, or are 2^32 or more, the
// error is a *Refused.
func Open(bytes []byte) (*Store, error) {
	var words C.uint64_t
	var facts C.clubcard_store_facts
	facts.size = C.sizeof_clubcard_store_facts
	// Bytes that have no index aren't a store, and clubcard_open says why.
	if C.clubcard_index_length(lend(bytes), C.size_t(len(bytes)), &words) != C.CLUBCARD_DONE {
		words = 0
	}
	// No index of fewer than 2^32 bytes is so long.
	if words > 1<<36 {
		return nil, refused(C.CLUBCARD_NO_MEMORY, 0, 0)
	}
	index := make([]uint32, words)
	number := C.clubcard_open(lend(bytes), C.size_t(len(bytes)), lendIndex(index), C.size_t(len(index)), &facts)
	if number != C.CLUBCARD_DONE {
		return nil, refused(number, facts.at, facts.field)
	}
	return &Store{bytes, index, Facts{uint64(facts.parts), uint64(facts.newest_epoch)}}, nil
}

// Facts are what the store holds.
func (store *Store) Facts() Facts {
	return store.facts
}

// Ask is the verdict on the certificate with this issuer key's hash (the SHA-256 of the issuer's DER
// SubjectPublicKeyInfo) and this serial (the contents octets of serialNumber), which logs saw. With a serial that
// hasn't 1 to 32 octets the error is BadSerial.
func (store *Store) Ask(issuer [32]byte, serial []byte, sightings []Sighting) (Verdict, error) {
	seen := lendSightings(nil, sightings)
	return verdictOf(C.clubcard_ask(lend(store.bytes), C.size_t(len(store.bytes)), lendIndex(store.index),
		C.size_t(len(store.index)), lend(issuer[:]), lend(serial), C.size_t(len(serial)), first(seen),
		C.size_t(len(seen))))
}

// AskCert is the verdict on a certificate by the timestamps that it carries and its issuer's certificate, both in DER.
// It has the meaning that the package's page says where one of the timestamps is of an accepted entry, and so is each
// that a part covers. Where a certificate isn't read, or the first carries no timestamps, the error says which.
func (store *Store) AskCert(cert, issuerCert []byte) (Verdict, error) {
	return verdictOf(C.clubcard_ask_cert(lend(store.bytes), C.size_t(len(store.bytes)), lendIndex(store.index),
		C.size_t(len(store.index)), lend(cert), C.size_t(len(cert)), lend(issuerCert), C.size_t(len(issuerCert))))
}

// AskEach answers many queries by one call: it gives for each its verdict, or why there is none.
func (store *Store) AskEach(queries []Query) []Answer {
	var seen []C.clubcard_sighting
	lent := make([]C.clubcard_one_query, len(queries))
	for place, query := range queries {
		lendQuery(&lent[place], query, len(seen))
		seen = lendSightings(seen, query.Sightings)
	}
	var asked *C.clubcard_one_query
	if len(lent) > 0 {
		asked = &lent[0]
	}
	number := C.clubcard_ask_each(lend(store.bytes), C.size_t(len(store.bytes)), lendIndex(store.index),
		C.size_t(len(store.index)), first(seen), C.size_t(len(seen)), asked, C.size_t(len(lent)))
	answers := make([]Answer, len(lent))
	for place := range lent {
		if number == C.CLUBCARD_DONE {
			answers[place].Verdict, answers[place].Err = verdictOf(lent[place].answer)
		} else {
			answers[place].Err = refused(number, 0, 0)
		}
	}
	return answers
}

// CoveredUntil is the last moment of the newest part's range of the log, in milliseconds since 1970, and whether it has
// one.
func (store *Store) CoveredUntil(log [32]byte) (until uint64, isCovered bool) {
	var moment C.uint64_t
	number := C.clubcard_covered_until(lend(store.bytes), C.size_t(len(store.bytes)), lendIndex(store.index),
		C.size_t(len(store.index)), lend(log[:]), &moment)
	return uint64(moment), number == C.CLUBCARD_DONE
}

// Install gives the bytes of the store that has this part more. Where the bytes aren't a part, or it doesn't go on with
// this store, the error is a *Refused.
func (store *Store) Install(part []byte) ([]byte, error) {
	var facts C.clubcard_install_facts
	facts.size = C.sizeof_clubcard_install_facts
	made := make([]byte, len(store.bytes)+len(part))
	number := C.clubcard_install(lend(store.bytes), C.size_t(len(store.bytes)), lend(part), C.size_t(len(part)),
		lend(made), C.size_t(len(made)), &facts)
	if number != C.CLUBCARD_DONE {
		return nil, refused(number, facts.at, facts.field)
	}
	return made[:facts.length], nil
}

// CheckPart tests a part's bytes, and says what it holds. Where they aren't a part, the error is a *Refused.
func CheckPart(part []byte) (Part, error) {
	var facts C.clubcard_part_facts
	facts.size = C.sizeof_clubcard_part_facts
	number := C.clubcard_check_part(lend(part), C.size_t(len(part)), &facts)
	if number != C.CLUBCARD_DONE {
		return Part{}, refused(number, facts.at, facts.field)
	}
	checked := Part{IsDelta: facts.kind == 1, Epoch: uint64(facts.epoch), Ranges: uint64(facts.ranges),
		Issuers: uint64(facts.issuers)}
	for place, octet := range facts.trailer {
		checked.Trailer[place] = byte(octet)
	}
	return checked, nil
}

// Place is the place of a certificate, where a history is cut into so many, from 0 on. It is asked for in the store of
// its place: any other may say Good of a revoked one. With a serial that hasn't 1 to 32 octets the error is BadSerial,
// and with places that aren't 1 to 65,536 it is BadPlaces.
func Place(by By, issuer [32]byte, serial []byte, count uint64) (uint64, error) {
	var place C.uint64_t
	number := C.clubcard_place(C.uint32_t(by), lend(issuer[:]), lend(serial), C.size_t(len(serial)), C.uint64_t(count),
		&place)
	if number != C.CLUBCARD_DONE {
		return 0, refused(number, 0, 0)
	}
	return uint64(place), nil
}

// LibraryInterface is the version of the interface that the library has: Interface, where it is the one of this
// package's tree.
func LibraryInterface() int {
	return int(C.clubcard_interface())
}

// verdictOf is the verdict of a number. Any other number is an error.
func verdictOf(number C.uint32_t) (Verdict, error) {
	if verdict := Verdict(number); NotCovered <= verdict && verdict <= Revoked {
		return verdict, nil
	}
	return 0, refused(number, 0, 0)
}

// refused is the error of a number, with the place that the call told.
func refused(number C.uint32_t, at, field C.uint64_t) error {
	return &Refused{Refusal(number), uint64(at), C.GoString(C.clubcard_field_name(field))}
}

// lend is where bytes lie. The library keeps no pointer, so that Go's rules for them are kept.
func lend(bytes []byte) *C.uint8_t {
	if len(bytes) == 0 {
		return nil
	}
	return (*C.uint8_t)(unsafe.Pointer(&bytes[0]))
}

// lendIndex is where the words of an index lie.
func lendIndex(index []uint32) *C.uint32_t {
	if len(index) == 0 {
		return nil
	}
	return (*C.uint32_t)(unsafe.Pointer(&index[0]))
}

// first is where sightings lie.
func first(seen []C.clubcard_sighting) *C.clubcard_sighting {
	if len(seen) == 0 {
		return nil
	}
	return &seen[0]
}

// copyOctets copies as many octets as there is room for.
func copyOctets(to []C.uint8_t, from []byte) {
	for place := 0; place < len(to) && place < len(from); place++ {
		to[place] = C.uint8_t(from[place])
	}
}

// lendSightings puts sightings behind others, in the layout of C.
func lendSightings(seen []C.clubcard_sighting, sightings []Sighting) []C.clubcard_sighting {
	for _, sighting := range sightings {
		lent := C.clubcard_sighting{time: C.uint64_t(sighting.Time)}
		copyOctets(lent.log[:], sighting.Log[:])
		seen = append(seen, lent)
	}
	return seen
}

// lendQuery makes a query in the layout of C, whose sightings begin at this place. It panics where the queries have
// 2^32 sightings or more together.
func lendQuery(lent *C.clubcard_one_query, query Query, place int) {
	if uint64(place)+uint64(len(query.Sightings)) >= 1<<32 {
		panic(fmt.Sprintf("clubcard: there are too many sightings: %d before a query", place))
	}
	// Whatever is above the limit is refused alike.
	octets := len(query.Serial)
	if octets > maxSerial {
		octets = maxSerial + 1
	}
	copyOctets(lent.issuer[:], query.Issuer[:])
	copyOctets(lent.serial[:], query.Serial)
	lent.serial_len, lent.first_sighting = C.uint32_t(octets), C.uint32_t(place)
	lent.sightings = C.uint32_t(len(query.Sightings))
}
