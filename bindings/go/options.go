package naltvigo

/*
#cgo CFLAGS: -I${SRCDIR} -I${SRCDIR}/../../include
#include "naltvigo.h"
*/
import "C"

// Order is the order of the keys of a map, by their canonical bytes.
type Order uint32

const (
	Bytewise    Order = C.NALTVIGO_BYTEWISE     // lexicographic (RFC 8949, section 4.2.1)
	LengthFirst Order = C.NALTVIGO_LENGTH_FIRST // the shorter key first, then lexicographic (section 4.2.3)
)

// Keys are the kinds of keys that maps may have.
type Keys uint32

const (
	AnyKeys          Keys = C.NALTVIGO_ANY_KEYS
	IntegersAndTexts Keys = C.NALTVIGO_INTEGERS_AND_TEXTS // a key of another kind is refused
)

// The greatest limits.
const (
	MaxDepth = 1024
	MaxBytes = 1 << 62
)

// Options are the order of keys and the limits on an item. A nil *Options is DefaultOptions. A limit of 0 is 0, and not the
// default: change what DefaultOptions returns.
type Options struct {
	Bytes uint64 // the bytes that an item, and its canonical bytes, may have; at most MaxBytes
	Depth uint32 // how deep arrays, maps and tags may nest; at most MaxDepth
	Order Order
	Keys  Keys
}

// DefaultOptions are 2^20 bytes, 64 levels, bytewise order, and keys of any kind.
func DefaultOptions() Options {
	return Options{Bytes: 1 << 20, Depth: 64, Order: Bytewise, Keys: AnyKeys}
}

func given(options *Options) Options {
	if options == nil {
		return DefaultOptions()
	}
	return *options
}

func (options Options) c() C.struct_naltvigo_options {
	return C.struct_naltvigo_options{
		bytes: C.uint64_t(options.Bytes),
		depth: C.uint32_t(options.Depth),
		order: C.uint32_t(options.Order),
		keys:  C.uint32_t(options.Keys),
	}
}
