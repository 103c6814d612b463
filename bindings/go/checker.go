package naltvigo

// #include "naltvigo_checker.h"
import "C"

import (
	"io"
	"runtime"
)

// Checker checks that an item that arrives in parts of any length is in its canonical bytes. After each part it returns what
// CheckCanonical returns for all bytes of the item so far, except that it returns nil where that is Truncated. It does not
// matter where the item is cut into parts. So an item is refused at the first wrong byte.
//
// A Checker stores the last key of each open map and the key that is not complete, but no other byte of the item. It also needs
// 10.3 KiB at any depth, and 24 bytes for each open map (24 KiB at 1,024 levels). If you have all bytes, call CheckCanonical: a
// Checker takes 1.2 to 2.2 times as long for records, and 6 to 16 times as long for single integers and for a large map of small
// pairs.
//
// After a refusal other than Truncated, each call returns the same refusal, until Restart. Its offset counts from the item's
// first byte. Its path is always $, because the bytes are no longer there. After ErrMemory, call Restart, too.
//
// NewChecker makes one, and Close frees it. One goroutine at a time may use it.
type Checker struct {
	state *checkerState // so that a copy of a Checker is the same one, which is freed once
}

type checkerState struct {
	handle   C.struct_naltvigo_checker
	order    C.uint32_t
	consumed uint64
	complete bool
	trailing bool // whether a byte after the item was refused: the library does not refuse it
}

// NewChecker returns a checker before an item's first byte.
func NewChecker(options *Options) (*Checker, error) {
	with := given(options).c()
	state := &checkerState{order: with.order}
	if err := failure(C.naltvigo_checker_new(&with, &state.handle)); err != nil {
		return nil, err
	}
	runtime.SetFinalizer(state, (*checkerState).free)
	return &Checker{state}, nil
}

// Feed consumes bytes of the item from the start of a part, and returns their number. It is less than the part's length only
// if the item is complete or refused. A part of no bytes is allowed. It does not mean that the item ends.
func (checker *Checker) Feed(part []byte) (int, error) {
	state := checker.state
	if state.trailing {
		return 0, state.refuseTrailing()
	}
	var used C.size_t
	var why C.struct_naltvigo_refusal
	status := C.naltvigo_checker_feed(&state.handle, first(part), C.size_t(len(part)), &used, &why)
	state.consumed += uint64(used)
	state.complete = status == C.NALTVIGO_OK
	if status == C.NALTVIGO_MORE {
		return int(used), nil
	}
	return int(used), outcome(status, &why, nil, widest)
}

// Write is Feed for exactly one item: a byte after it is refused as Trailing, and after that each call returns this refusal. The
// number is the number of the part's bytes that belong to the item.
func (checker *Checker) Write(part []byte) (int, error) {
	used, err := checker.Feed(part)
	if err == nil && used < len(part) {
		err = checker.state.refuseTrailing()
	}
	return used, err
}

// Complete reports whether the item's last byte was consumed, and the item is canonical.
func (checker *Checker) Complete() bool { return checker.state.complete }

// Consumed returns the number of the item's bytes that were consumed.
func (checker *Checker) Consumed() uint64 { return checker.state.consumed }

// End is for the end of the input. It returns nil if and only if the item is complete and no byte after it was written. An item
// that is not complete is refused as Truncated. After Truncated, more bytes may follow. Any other refusal stays until Restart.
func (checker *Checker) End() error {
	state := checker.state
	if state.trailing {
		return state.refuseTrailing()
	}
	var why C.struct_naltvigo_refusal
	status := C.naltvigo_checker_end(&state.handle, &why)
	return outcome(status, &why, nil, widest)
}

// Restart begins another item, with the same options. The item before it may be complete, refused or not complete.
func (checker *Checker) Restart() {
	state := checker.state
	C.naltvigo_checker_restart(state.order, &state.handle)
	state.consumed, state.complete, state.trailing = 0, false, false
}

// Close frees the memory now, and not when the garbage collector finds the Checker. After it, each call returns ErrClosed.
// The error is nil.
func (checker *Checker) Close() error {
	runtime.SetFinalizer(checker.state, nil)
	checker.state.free()
	*checker.state = checkerState{}
	return nil
}

func (state *checkerState) free() { C.naltvigo_checker_free(&state.handle) }

// refuseTrailing refuses a byte after the item.
func (state *checkerState) refuseTrailing() error {
	state.trailing = true
	at := C.uint64_t(state.consumed)
	return refusedBy(&C.struct_naltvigo_refusal{reason: C.NALTVIGO_TRAILING, offset: at, consumed: at}, nil, widest)
}

// CheckReader returns nil if and only if all bytes of a reader are one item in its canonical bytes. It reads to the end, or until
// a byte is refused, and stores no more than a Checker does. For the same bytes, CheckCanonical returns the same refusal. Any
// other error is from the reader. The number is the number of bytes that were consumed.
func CheckReader(from io.Reader, options *Options) (int64, error) {
	checker, err := NewChecker(options)
	if err != nil {
		return 0, err
	}
	defer checker.Close()
	if _, err = io.Copy(checker, from); err == nil {
		err = checker.End()
	}
	return int64(checker.Consumed()), err
}
