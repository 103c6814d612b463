package naltvigo

import (
	"bytes"
	"io"
	"naltvigo/internal/memory"
	"runtime"
	"strings"
	"testing"
	"testing/iotest"
)

// demanding is {"aa..": {"bb..": 0, "cc..": 0}, {{..}: 0}: 0}, with texts of 3,000 bytes and 20 maps as keys of one another:
// byte by byte, a checker requests memory for each of these keys.
func demanding() []byte {
	text := func(letter string) string { return "\x79\x0b\xb8" + strings.Repeat(letter, 3000) }
	inner := "\xa2" + text("b") + "\x00" + text("c") + "\x00"
	return []byte("\xa2" + text("a") + inner + strings.Repeat("\xa1", 20) + strings.Repeat("\x00", 21) + "\x00")
}

// fedBy feeds the parts of this size, and ends the item.
func fedBy(checker *Checker, input []byte, size int) error {
	_, err := io.CopyBuffer(struct{ io.Writer }{checker}, struct{ io.Reader }{bytes.NewReader(input)}, make([]byte, size))
	if err == nil {
		err = checker.End()
	}
	return err
}

// eachRefused makes a call again and again, with another of its requests for memory refused each time, until none is. It
// returns the number of refused requests. A call tests its result, and returns whether this was that memory ran out.
func eachRefused(t *testing.T, call func() (isOut bool)) int {
	t.Helper()
	if !memory.CanRefuse() {
		t.Skip("requests for memory cannot be refused without glibc")
	}
	runtime.LockOSThread()
	defer runtime.UnlockOSThread()
	call() // C allocates what it keeps
	for request := 1; ; request++ {
		before := memory.Held()
		memory.Refuse(request)
		isOut := call()
		wasRefused := memory.Waiting() == 0
		memory.Refuse(0)
		if isOut && !wasRefused {
			t.Fatalf("request %d was not refused, and memory ran out", request)
		}
		if lost := memory.Held() - before; lost != 0 {
			t.Fatalf("request %d: %d blocks are lost", request, lost)
		}
		if !wasRefused {
			return request - 1
		}
	}
}

// A checker that had no memory returns the same again, until a restart.
func TestCheckerWithoutMemory(t *testing.T) {
	input := demanding()
	for _, part := range []struct{ size, least int }{{1, 10}, {97, 10}, {len(input), 1}} {
		count := eachRefused(t, func() bool {
			checker, err := NewChecker(nil)
			if err != nil {
				if checker != nil || err != ErrMemory {
					t.Fatal(checker, err)
				}
				return true
			}
			defer checker.Close()
			err = fedBy(checker, input, part.size)
			if err == nil {
				return false
			}
			consumed := checker.Consumed()
			used, again := checker.Feed([]byte{0})
			if err != ErrMemory || again != ErrMemory || checker.End() != ErrMemory || used != 0 || checker.Consumed() != consumed || checker.Complete() {
				t.Fatal(err, again, checker.End(), used, consumed)
			}
			checker.Restart()
			if err := fedBy(checker, input, part.size); err != nil || checker.Consumed() != uint64(len(input)) {
				t.Fatal(err, checker.Consumed())
			}
			return true
		})
		if count < part.least {
			t.Errorf("parts of %d bytes: only %d requests were refused", part.size, count)
		}
	}
}

func TestCheckReaderWithoutMemory(t *testing.T) {
	input := demanding()
	count := eachRefused(t, func() bool {
		used, err := CheckReader(iotest.OneByteReader(bytes.NewReader(input)), nil)
		if (err != nil && err != ErrMemory) || (err == nil && used != int64(len(input))) {
			t.Fatal(used, err)
		}
		return err != nil
	})
	if count < 10 {
		t.Errorf("only %d requests were refused", count)
	}
}

// An input that is not canonical is refused as such, unless memory ran out before its fault.
func TestRefusalWithoutMemory(t *testing.T) {
	count := eachRefused(t, func() bool {
		checker, err := NewChecker(nil)
		if err == nil {
			defer checker.Close()
			// the key 00 after the key 01
			_, err = checker.Write([]byte("\xa2\x01\x00\x00"))
		}
		if err == ErrMemory {
			return true
		}
		// their texts may be empty
		for _, err := range []error{err, checker.End()} {
			if refusedAs(err) != *refusal(KeyOrder, 3, 4) {
				t.Fatal(err)
			}
		}
		return false
	})
	if count < 2 {
		t.Errorf("only %d requests were refused", count)
	}
}
