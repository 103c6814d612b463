// Package naltvigo is deterministic CBOR (RFC 8949, section 4.2, without floating-point numbers) by a library that is
// proved.
//
// Each accepted input has one canonical encoding. For each refused input the error has a reason, and the offset of the fault:
//
//	canonical, err := naltvigo.Canonicalise(input, nil)
//	var refused *naltvigo.Refused
//	if errors.As(err, &refused) {
//		log.Print(refused.Reason, refused.Offset)
//	}
//
// You make a Value in Go, or Unmarshal decodes it from any encoding. Marshal encodes it. An Item reads from canonical bytes
// without a copy. A Reader splits a stream into its items, and a Checker checks one item as it arrives.
//
// The calls on bytes, the look-ups of an Item and the table of items that values are decoded from are proved; the rest of
// this package is tested. The package calls the library by cgo, so it needs a C compiler. All calls may be made from any
// number of goroutines at once, except for those of one Reader or Checker.
package naltvigo
