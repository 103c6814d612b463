package naltvigo

// #include "naltvigo.h"
import "C"

import (
	"errors"
	"fmt"
	"strings"
	"unsafe"
)

// Refused is the error of an input that is refused: errors.As finds it. Its texts are empty if memory ran out for them.
type Refused struct {
	Reason   Reason
	Offset   uint64 // the offset of what is wrong, in bytes
	Consumed uint64 // how many bytes were read
	Sentence string // what is wrong
	Advice   string // what to do about it
	Path     string // where in the item it is: $."a"[1] is the second member of the array at the key "a", and $ the item
}

func (refused *Refused) Error() string {
	said := fmt.Sprintf("naltvigo: refused %d %v at %d", uint32(refused.Reason), refused.Reason, refused.Offset)
	if refused.Path != "$" && refused.Path != "" {
		said += " (" + refused.Path + ")"
	}
	if refused.Sentence != "" {
		said += ": " + refused.Sentence
	}
	return said
}

// String returns the name of the reason.
func (reason Reason) String() string {
	var name [C.NALTVIGO_NAME_MAX]C.char
	C.naltvigo_reason_name(C.uint32_t(reason), &name[0], C.size_t(len(name)))
	return C.GoString(&name[0])
}

// RefusedSide is the error of Same, and says which input is refused. It wraps a *Refused.
type RefusedSide struct {
	Right bool // whether it is the right input; the left one is accepted then
	Cause *Refused
}

func (refused *RefusedSide) Error() string {
	if refused.Right {
		return refused.Cause.Error() + " (right input)"
	}
	return refused.Cause.Error() + " (left input)"
}

// Unwrap returns the *Refused.
func (refused *RefusedSide) Unwrap() error { return refused.Cause }

// FieldError is the error of GetInt64, GetUint64, GetBool, GetText and GetBytes. It has the key. It wraps ErrNotFound,
// ErrWrongKind, ErrOutOfRange, or the error of the look-up: errors.Is finds them.
type FieldError struct {
	Key   Value
	Cause error
}

func (err *FieldError) Error() string {
	why := strings.TrimPrefix(err.Cause.Error(), "naltvigo: ")
	encoded, failed := Marshal(err.Key, &widest)
	if failed != nil {
		return "naltvigo: at a key: " + why
	}
	return fmt.Sprintf("naltvigo: at key %v: %s", Item{bytes: encoded}, why)
}

// Unwrap returns the cause.
func (err *FieldError) Unwrap() error { return err.Cause }

var (
	// ErrMemory says that memory ran out: nothing is known of the input.
	ErrMemory = errors.New("naltvigo: out of memory")
	// ErrOptions says that an option is out of range.
	ErrOptions = errors.New("naltvigo: an option is out of range")
	// ErrNotFound says that a map has no such key, or an array no such member.
	ErrNotFound = errors.New("naltvigo: no such key or member")
	// ErrWrongKind says that an item or value is of another kind.
	ErrWrongKind = errors.New("naltvigo: an item of another kind")
	// ErrOutOfRange says that an integer does not fit its type.
	ErrOutOfRange = errors.New("naltvigo: the integer does not fit the type")
	// ErrClosed says that a Checker is closed.
	ErrClosed = errors.New("naltvigo: the checker is closed")
)

// outcome is the error of a call that may refuse its input.
func outcome(status C.uint32_t, why *C.struct_naltvigo_refusal, input []byte, options Options) error {
	if status == C.NALTVIGO_REFUSED {
		return refusedBy(why, input, options)
	}
	return failure(status)
}

// failure is the error of any other status of the library.
func failure(status C.uint32_t) error {
	switch status {
	case C.NALTVIGO_OK:
		return nil
	case C.NALTVIGO_NO_MEMORY:
		return ErrMemory
	case C.NALTVIGO_BAD_ORDER, C.NALTVIGO_BAD_LIMITS:
		return ErrOptions
	case C.NALTVIGO_NOT_FOUND:
		return ErrNotFound
	case C.NALTVIGO_WRONG_KIND:
		return ErrWrongKind
	case C.NALTVIGO_BAD_MACHINE:
		return ErrClosed
	}
	return fmt.Errorf("naltvigo: status %d", uint32(status))
}

func refusedBy(why *C.struct_naltvigo_refusal, input []byte, options Options) *Refused {
	lines := append(strings.SplitN(explained(why, input, options), "\n", 3), "", "")
	return &Refused{Reason(why.reason), uint64(why.offset), uint64(why.consumed), lines[0], lines[1], lines[2]}
}

// explained is the sentence, the advice and the path of a refusal, a line each.
func explained(why *C.struct_naltvigo_refusal, input []byte, options Options) string {
	with := options.c()
	out := make([]byte, 512)
	for {
		var needed C.size_t
		text := (*C.char)(unsafe.Pointer(first(out)))
		if C.naltvigo_explain(first(input), C.size_t(len(input)), &with, why, text, C.size_t(len(out)), &needed) != C.NALTVIGO_TOO_SMALL {
			return string(out[:needed])
		}
		out = make([]byte, needed)
	}
}
