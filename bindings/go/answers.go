package clubcard

import "fmt"

// Verdict is what a store says of a certificate. Only Good says that it isn't revoked; the package's page says what
// that means. The zero value is no verdict.
type Verdict uint32

// The verdicts.
const (
	NotCovered  Verdict = 1 // no part covers one of the sightings
	NotEnrolled Verdict = 2 // parts cover one, and none of these has a block of the certificate's issuer
	Good        Verdict = 3 // the certificate isn't revoked
	Revoked     Verdict = 4 // the certificate is revoked
)

// String is the word of a verdict, as the program prints it.
func (verdict Verdict) String() string {
	switch verdict {
	case NotCovered:
		return "not-covered"
	case NotEnrolled:
		return "not-enrolled"
	case Good:
		return "good"
	case Revoked:
		return "revoked"
	}
	return fmt.Sprintf("no verdict, %d", uint32(verdict))
}

// Refusal is why there is no answer. It is an error, so that errors.Is finds it in a Refused.
type Refusal uint32

// The refusals, with the numbers of clubcard.h.
const (
	LayoutShort         Refusal = 16  // a field isn't all there
	LayoutValue         Refusal = 17  // a field fails its test, or bytes lie behind the last
	LayoutDigest        Refusal = 18  // a digest isn't that of the bytes before it
	NotSnapshot         Refusal = 32  // the first part is a delta
	NotDelta            Refusal = 33  // a later part is a snapshot
	WrongParent         Refusal = 34  // a part's parent isn't the trailer of the part before it
	OldEpoch            Refusal = 35  // a part's epoch isn't above that of the part before it
	CoverageShrinks     Refusal = 36  // a range of the part before it lies in none of a part's
	ChainFull           Refusal = 37  // a part has 64 before it
	StoreTooLong        Refusal = 38  // the store has 2^32 bytes or more
	BadSerial           Refusal = 48  // the serial has no octet, or more than 32
	BadSightings        Refusal = 49  // a query's sightings aren't among those that are lent
	BadPlaces           Refusal = 50  // the places aren't 1 to 65,536, or are by neither issuers nor identities
	CertMalformed       Refusal = 64  // the certificate isn't one of RFC 5280 in DER, or is longer than 1 MiB
	CertNoScts          Refusal = 65  // the certificate carries no signed certificate timestamp of version 1
	CertBadScts         Refusal = 66  // the certificate's list of timestamps can't be read
	CertTooManyScts     Refusal = 67  // the certificate carries more than 64 timestamps
	IssuerCertMalformed Refusal = 68  // the issuer's certificate isn't one of RFC 5280 in DER, or is too long
	IndexTooShort       Refusal = 80  // the index is too short, which this package never lends
	RoomTooShort        Refusal = 81  // the room for a new store is too short, which this package never lends
	BadSize             Refusal = 82  // a struct has another size than the library's
	NoMemory            Refusal = 112 // memory is wanted
)

var refusals = map[Refusal]string{
	LayoutShort:         "a field isn't all there",
	LayoutValue:         "a field fails its test",
	LayoutDigest:        "a digest isn't that of the bytes before it",
	NotSnapshot:         "the first part is a delta",
	NotDelta:            "a later part is a snapshot",
	WrongParent:         "a part's parent isn't the part before it",
	OldEpoch:            "a part's epoch isn't above that of the part before it",
	CoverageShrinks:     "a part covers less than the part before it",
	ChainFull:           "a store has 64 parts at most",
	StoreTooLong:        "the store has 2^32 bytes or more",
	BadSerial:           "a serial has 1 to 32 octets",
	BadSightings:        "a query's sightings aren't among those that are lent",
	BadPlaces:           "places are 1 to 65,536, by issuers or by identities",
	CertMalformed:       "the certificate isn't read",
	CertNoScts:          "the certificate carries no timestamp",
	CertBadScts:         "the certificate's timestamps aren't read",
	CertTooManyScts:     "the certificate carries more than 64 timestamps",
	IssuerCertMalformed: "the issuer's certificate isn't read",
	IndexTooShort:       "the index is too short",
	RoomTooShort:        "the room for the new store is too short",
	BadSize:             "the size of the facts isn't that of this interface",
	NoMemory:            "memory is wanted",
}

// Error says in words why there is no answer.
func (refusal Refusal) Error() string {
	if words, known := refusals[refusal]; known {
		return words
	}
	return fmt.Sprintf("an unknown answer, %d", uint32(refusal))
}

// Refused is the error of a call that gave no answer.
type Refused struct {
	Refusal Refusal
	At      uint64 // for the refusals of the layout, the offset of the field at fault, of a store or of a part; else 0
	Field   string // for the refusals of the layout, the field's name in docs/FORMATS.md, such as part.trailer
}

// Error says why there is no answer, and where.
func (refused *Refused) Error() string {
	if refused.Field == "" {
		return refused.Refusal.Error()
	}
	return fmt.Sprintf("%v, %s at %d", refused.Refusal, refused.Field, refused.At)
}

// Unwrap is why.
func (refused *Refused) Unwrap() error {
	return refused.Refusal
}
