package naltvigo

import (
	"bytes"
	"io"
	"testing"
	"testing/iotest"
)

func seeds(f *testing.F) {
	for _, seed := range []string{"", "\x00", "\xbf\x63Fun\xf5\x63Amt\x21\xff", "\xa2\x00\x00\x00\x00", "\xf9\x3e\x00", "\x7f\x61a\x61\xff",
		"\xa1\xa1\x81\x00\xc1\x40\x00", "\x9f\x9f\xff\x5f\x41\x00\xff\xff", "\x83\x00\x20\xf8\xff", "\x00\x18\x00\x62ab"} {
		f.Add([]byte(seed))
	}
}

// The calls on bytes agree, and an accepted input and its canonical bytes mean the same.
func FuzzCalls(f *testing.F) {
	seeds(f)
	f.Fuzz(func(t *testing.T, input []byte) {
		for _, order := range []Order{Bytewise, LengthFirst} {
			options := DefaultOptions()
			options.Order = order
			canonical, err := Canonicalise(input, &options)
			if valid := CheckValid(input, &options); (valid == nil) != (err == nil) {
				t.Fatalf("%v, but %v", err, valid)
			}
			if own := CheckCanonical(input, &options); (own == nil) != (err == nil && bytes.Equal(canonical, input)) {
				t.Fatalf("canonical bytes %x, but %v", canonical, own)
			}
			if err != nil {
				continue
			}
			again, err := Canonicalise(canonical, &options)
			if err != nil || !bytes.Equal(again, canonical) {
				t.Fatalf("%x again: %x, %v", canonical, again, err)
			}
			if same, err := Same(input, canonical, &options); err != nil || !same {
				t.Fatalf("%x: %v, %v", canonical, same, err)
			}
		}
	})
}

// What values are decoded from and encoded to is what Canonicalise makes of the bytes.
func FuzzValues(f *testing.F) {
	seeds(f)
	f.Fuzz(func(t *testing.T, input []byte) {
		for _, order := range []Order{Bytewise, LengthFirst} {
			options := DefaultOptions()
			options.Order = order
			wanted, err := Canonicalise(input, &options)
			value, failed := Unmarshal(input, &options)
			if (err == nil) != (failed == nil) || (err != nil && err.Error() != failed.Error()) {
				t.Fatalf("%v, but %v", err, failed)
			}
			if err != nil {
				continue
			}
			found, err := Marshal(value, &options)
			if err != nil || !bytes.Equal(found, wanted) {
				t.Fatalf("wanted %x, found %x, %v", wanted, found, err)
			}
			item, err := Open(found, &options)
			if err != nil {
				t.Fatal(err)
			}
			if again, err := item.Value(); err != nil || !Equal(value, again) || Equal(value, Array{again}) {
				t.Fatalf("%v is not %v: %v", value, again, err)
			}
		}
	})
}

// A stream in parts of one byte has the same items as a stream in one part, and NextValid finds the same items.
func FuzzReader(f *testing.F) {
	seeds(f)
	f.Fuzz(func(t *testing.T, input []byte) {
		whole, parts := NewReader(bytes.NewReader(input), nil), NewReader(iotest.OneByteReader(bytes.NewReader(input)), nil)
		for rest := input; ; {
			item, err := whole.Next()
			other, otherErr := parts.Next()
			if !bytes.Equal(item, other) || (err == nil) != (otherErr == nil) || (err != nil && err.Error() != otherErr.Error()) {
				t.Fatalf("%x, %v, but in parts %x, %v", item, err, other, otherErr)
			}
			if err == io.EOF && len(rest) == 0 {
				return
			}
			size, wanted := NextValid(rest, nil)
			if (err == nil) != (wanted == nil) || (err != nil && err.Error() != wanted.Error()) || !bytes.Equal(item, rest[:size]) {
				t.Fatalf("%x, %v, but %x, %v", item, err, rest[:size], wanted)
			}
			if err != nil {
				return
			}
			rest = rest[size:]
		}
	})
}

// What a checker says after each part is what CheckCanonical says of all bytes so far.
func FuzzChecker(f *testing.F) {
	for _, seed := range []string{"", "\x00", "\xa2\x61a\x00\x61b\x82\x01\x02", "\xa2\x61b\x00\x61a\x00", "\xf9\x3e\x00",
		"\xa1\xa1\x81\x00\xc1\x40\x00", "\x82\x18\x64\x18\x00", "\x62\xc3\xa4\x00", "\x61\xff"} {
		f.Add([]byte(seed), uint16(3), uint16(5))
	}
	f.Fuzz(func(t *testing.T, input []byte, one, other uint16) {
		if len(input) > 1000 {
			return
		}
		for _, order := range []Order{Bytewise, LengthFirst} {
			options := DefaultOptions()
			options.Order = order
			prefixes := saidOfPrefixes(input, &options)
			checker, err := NewChecker(&options)
			if err != nil {
				t.Fatal(err)
			}
			cut := int(one) % (len(input) + 1)
			next := cut + int(other)%(len(input)-cut+1)
			inParts(t, checker, input, []int{cut, next, len(input)}, prefixes)
			checker.Restart()
			each := make([]int, len(input)+1)
			for end := range each {
				each[end] = end
			}
			inParts(t, checker, input, each, prefixes)
			checker.Close()
		}
	})
}
