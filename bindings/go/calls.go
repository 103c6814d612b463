package naltvigo

// #include "naltvigo.h"
import "C"

import "unsafe"

// first is a pointer to the first byte, for a call that also gets the length; nil if there is none.
func first(bytes []byte) *C.uint8_t {
	if len(bytes) == 0 {
		return nil
	}
	return (*C.uint8_t)(unsafe.Pointer(&bytes[0]))
}

// within is the length of the input, or the byte limit if that is less: no canonical bytes are longer than it.
func within(input []byte, options Options) int {
	if uint64(len(input)) > options.Bytes {
		return int(options.Bytes)
	}
	return len(input)
}

// written is what a call on an input writes to a buffer, which is made again if it is too small.
func written(input []byte, options Options, size int, call func(out []byte, needed *C.size_t, why *C.struct_naltvigo_refusal) C.uint32_t) ([]byte, error) {
	for {
		var needed C.size_t
		var why C.struct_naltvigo_refusal
		out := make([]byte, size)
		status := call(out, &needed, &why)
		if status == C.NALTVIGO_OK {
			return out[:needed], nil
		}
		if status != C.NALTVIGO_TOO_SMALL {
			return nil, outcome(status, &why, input, options)
		}
		size = int(needed)
	}
}

// Canonicalise returns the canonical bytes of the input, which must be one valid item, in any encoding. In the same order, two
// accepted inputs have equal canonical bytes if and only if their values are the same.
func Canonicalise(input []byte, options *Options) ([]byte, error) {
	of := given(options)
	with := of.c()
	return written(input, of, within(input, of), func(out []byte, needed *C.size_t, why *C.struct_naltvigo_refusal) C.uint32_t {
		return C.naltvigo_canonicalise(first(input), C.size_t(len(input)), &with, first(out), C.size_t(len(out)), needed, why)
	})
}

// CheckCanonical returns nil if and only if the whole input is one valid item in its canonical bytes.
func CheckCanonical(input []byte, options *Options) error {
	of := given(options)
	with := of.c()
	var why C.struct_naltvigo_refusal
	return outcome(C.naltvigo_check_canonical(first(input), C.size_t(len(input)), &with, &why), &why, input, of)
}

// CheckValid returns nil if and only if the whole input is one valid item, in any encoding.
func CheckValid(input []byte, options *Options) error {
	of := given(options)
	with := of.c()
	var why C.struct_naltvigo_refusal
	return outcome(C.naltvigo_check_valid(first(input), C.size_t(len(input)), &with, &why), &why, input, of)
}

// Same reports whether two inputs, each one valid item in any encoding, have the same value. Its error may be a
// *RefusedSide.
func Same(left, right []byte, options *Options) (bool, error) {
	of := given(options)
	with := of.c()
	var why C.struct_naltvigo_refusal
	var side C.uint32_t
	status := C.naltvigo_compare(first(left), C.size_t(len(left)), first(right), C.size_t(len(right)), &with, &side, &why)
	switch status {
	case C.NALTVIGO_DIFFERENT:
		return false, nil
	case C.NALTVIGO_REFUSED:
		if side == C.NALTVIGO_RIGHT {
			return false, &RefusedSide{Right: true, Cause: refusedBy(&why, right, of)}
		}
		return false, &RefusedSide{Cause: refusedBy(&why, left, of)}
	}
	return status == C.NALTVIGO_OK, failure(status)
}

// Diagnostic returns the diagnostic text (RFC 8949, section 8) of the input, which must be one valid item.
func Diagnostic(input []byte, options *Options) (string, error) {
	of := given(options)
	with := of.c()
	text, err := written(input, of, 2*within(input, of)+16, func(out []byte, needed *C.size_t, why *C.struct_naltvigo_refusal) C.uint32_t {
		return C.naltvigo_diagnostic(first(input), C.size_t(len(input)), &with, (*C.char)(unsafe.Pointer(first(out))), C.size_t(len(out)), needed, why)
	})
	return string(text), err
}

// NextValid returns the size of the valid item, in any encoding, at the start of the input. What follows it is not read.
func NextValid(input []byte, options *Options) (int, error) {
	of := given(options)
	with := of.c()
	var why C.struct_naltvigo_refusal
	var size C.uint64_t
	status := C.naltvigo_next_valid(first(input), C.size_t(len(input)), &with, &size, &why)
	return int(size), outcome(status, &why, input, of)
}

// NextCanonical is NextValid for an item in its canonical bytes.
func NextCanonical(input []byte, options *Options) (int, error) {
	of := given(options)
	with := of.c()
	var why C.struct_naltvigo_refusal
	var size C.uint64_t
	status := C.naltvigo_next_canonical(first(input), C.size_t(len(input)), &with, &size, &why)
	return int(size), outcome(status, &why, input, of)
}

// LibraryVersion is the version of the library that is called: a byte each for its three numbers.
func LibraryVersion() uint32 { return uint32(C.naltvigo_version()) }
