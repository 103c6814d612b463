package naltvigo

import (
	"math"
	"strconv"
)

// Value is a CBOR value: an Unsigned, Negative, Bytes, Text, Array, Map, Tag or Simple. There are no floating-point
// numbers. A Map is made by NewMap, and holds keys of any kind.
type Value interface{ kind() int }

// The kinds of values and items: the major types of RFC 8949.
const (
	KindUnsigned = iota
	KindNegative
	KindBytes
	KindText
	KindArray
	KindMap
	KindTag
	KindSimple
)

type (
	// Unsigned is an integer from 0 to 2^64-1.
	Unsigned uint64
	// Negative is the integer -1 - n, down to -2^64. Int makes one from an int64.
	Negative uint64
	// Bytes is a byte string.
	Bytes []byte
	// Text is a text string, in UTF-8.
	Text string
	// Array is an array of values.
	Array []Value
	// Tag is a tag with its content.
	Tag struct {
		Number  uint64
		Content Value
	}
	// Simple is a simple value: 0 to 23 or 32 to 255.
	Simple uint8
)

// The simple values that have names.
const (
	False     Simple = 20
	True      Simple = 21
	Null      Simple = 22
	Undefined Simple = 23
)

func (Unsigned) kind() int { return KindUnsigned }
func (Negative) kind() int { return KindNegative }
func (Bytes) kind() int    { return KindBytes }
func (Text) kind() int     { return KindText }
func (Array) kind() int    { return KindArray }
func (Map) kind() int      { return KindMap }
func (Tag) kind() int      { return KindTag }
func (Simple) kind() int   { return KindSimple }

// Int returns the value of an integer.
func Int(n int64) Value {
	if n < 0 {
		return Negative(^n)
	}
	return Unsigned(n)
}

// Bool returns True or False.
func Bool(is bool) Value {
	if is {
		return True
	}
	return False
}

// AsInt64 returns the integer that a value is: ErrWrongKind if it is not an integer, ErrOutOfRange if it does not fit.
func AsInt64(value Value) (int64, error) {
	switch n := value.(type) {
	case Unsigned:
		return toInt64(KindUnsigned, uint64(n))
	case Negative:
		return toInt64(KindNegative, uint64(n))
	}
	return 0, ErrWrongKind
}

func toInt64(kind int, number uint64) (int64, error) {
	switch {
	case kind != KindUnsigned && kind != KindNegative:
		return 0, ErrWrongKind
	case number > math.MaxInt64:
		return 0, ErrOutOfRange
	case kind == KindNegative:
		return ^int64(number), nil
	}
	return int64(number), nil
}

// Marshal returns the canonical bytes of a value. It fails as Canonicalise does: if the value nests too deep or is too
// long for the options, or if a Text is not UTF-8 or a Simple is 24 to 31. For a nil Value the error is ErrWrongKind.
func Marshal(value Value, options *Options) ([]byte, error) {
	encoded, err := appended(nil, value, given(options).Depth)
	if err != nil {
		return nil, err
	}
	return Canonicalise(encoded, options)
}

// Unmarshal returns the value that the whole input encodes, in any encoding. It fails as Canonicalise does.
func Unmarshal(input []byte, options *Options) (Value, error) {
	with := given(options)
	with.Order = Bytewise
	canonical, err := Canonicalise(input, &with)
	if err != nil {
		return nil, err
	}
	return decoded(canonical)
}

// String returns the integer in decimal digits.
func (n Negative) String() string {
	if n == math.MaxUint64 {
		return "-18446744073709551616"
	}
	return "-" + strconv.FormatUint(uint64(n)+1, 10)
}
