package naltvigo

// #include "naltvigo.h"
import "C"

import (
	"errors"
	"io"
)

// A read gets at least this much space.
const readSize = 1 << 16

// Reader splits a stream into the items of a sequence (RFC 8742). Its memory is bounded by the longest item, which the
// options limit, and the buffer of one read.
type Reader struct {
	from      io.Reader
	options   Options
	canonical bool
	buffer    []byte   // what was read, and not returned
	offset    uint64   // of the buffer's first byte
	cut       cutItem  // of an item that is not all there
	checker   *Checker // of items in their canonical bytes
	ended     bool
	pending   error // of a read that brought bytes too
	failed    error
}

// NewReader returns a reader of valid items, in any encoding.
func NewReader(from io.Reader, options *Options) *Reader {
	return &Reader{from: from, options: given(options)}
}

// NewCanonicalReader returns a reader of items in their canonical bytes. An item that is not canonical is refused at the
// first wrong byte, and nothing more is read.
func NewCanonicalReader(from io.Reader, options *Options) *Reader {
	return &Reader{from: from, options: given(options), canonical: true}
}

// Offset returns the offset in the stream of the next item, or of the one that was refused.
func (reader *Reader) Offset() uint64 { return reader.offset }

// Next returns the bytes of the next item, and io.EOF after the last one. Offsets of a *Refused count from the item's first
// byte; every later call returns it again. Any other error is from the stream: the next call reads on, and nothing is lost.
func (reader *Reader) Next() ([]byte, error) {
	for reader.failed == nil {
		if item, ok := reader.front(); ok {
			return item, nil
		}
		if reader.failed != nil {
			break
		}
		if reader.ended {
			return nil, io.EOF
		}
		if err := reader.read(); err != nil {
			return nil, err
		}
	}
	return nil, reader.failed
}

// front returns the item at the front of the buffer. It is not ok where more bytes are needed, or the item is refused.
func (reader *Reader) front() ([]byte, bool) {
	if len(reader.buffer) == 0 || (!reader.ended && reader.cut != nil && reader.cut.isCut(reader.buffer)) {
		return nil, false
	}
	next := NextValid
	if reader.canonical {
		next = NextCanonical
	}
	size, err := next(reader.buffer, &reader.options)
	var refused *Refused
	switch {
	case err == nil:
	case !reader.ended && errors.As(err, &refused) && refused.Reason == Truncated:
		reader.failed = reader.beginCut()
		return nil, false
	default:
		reader.failed = err
		return nil, false
	}
	item := append(make([]byte, 0, size), reader.buffer[:size]...)
	reader.buffer = reader.buffer[size:]
	reader.offset += uint64(size)
	reader.cut = nil
	return item, true
}

// beginCut begins the check of the next item, whose bytes arrive in parts.
func (reader *Reader) beginCut() (err error) {
	switch {
	case reader.cut != nil:
		return ErrMemory // the check of these bytes had no memory for a key
	case !reader.canonical:
		reader.cut, err = newCutMachine(&reader.options)
		return err
	case reader.checker == nil:
		if reader.checker, err = NewChecker(&reader.options); err != nil {
			return err
		}
	default:
		reader.checker.Restart()
	}
	reader.cut = cutChecker{reader.checker}
	return nil
}

// read appends the bytes of one read.
func (reader *Reader) read() error {
	size := len(reader.buffer)
	if cap(reader.buffer)-size < readSize {
		longer := make([]byte, size, 2*size+readSize)
		copy(longer, reader.buffer)
		reader.buffer = longer
	}
	for tries := 0; tries < 100; tries++ {
		if err := reader.pending; err != nil {
			reader.pending = nil
			return err
		}
		count, err := reader.from.Read(reader.buffer[size:cap(reader.buffer)])
		reader.buffer = reader.buffer[:size+count]
		if err == io.EOF {
			reader.ended = true
			return nil
		}
		reader.pending = err
		if count > 0 {
			return nil
		}
	}
	return io.ErrNoProgress
}

// cutItem is an item that is not complete yet. It reads each byte of the item once.
type cutItem interface {
	// isCut reports whether the item needs more bytes than these. It has read some of them before.
	isCut(item []byte) bool
}

// cutChecker is a cutItem that must be canonical.
type cutChecker struct{ *Checker }

func (cut cutChecker) isCut(item []byte) bool {
	_, err := cut.Feed(item[cut.Consumed():])
	return err == nil && !cut.Complete()
}

// cutMachine is a cutItem in any encoding. It checks that the item is well-formed.
type cutMachine struct {
	machine C.struct_naltvigo_machine
	events  [256]C.struct_naltvigo_event
	used    int
}

func newCutMachine(options *Options) (*cutMachine, error) {
	cut := new(cutMachine)
	with := options.c()
	return cut, failure(C.naltvigo_machine_start(&with, &cut.machine))
}

func (cut *cutMachine) isCut(item []byte) bool {
	for {
		var used, reported C.size_t
		var why C.struct_naltvigo_refusal
		rest := item[cut.used:]
		status := C.naltvigo_machine_feed(&cut.machine, first(rest), C.size_t(len(rest)), &used, &cut.events[0], C.size_t(len(cut.events)), &reported, &why)
		cut.used += int(used)
		if status != C.NALTVIGO_EVENT {
			return status == C.NALTVIGO_MORE
		}
	}
}
