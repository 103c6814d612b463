package naltvigo

import (
	"fmt"
	"os"
	"runtime"
	"testing"
)

// The memory of checkers is freed, by Close or by the garbage collector: 10 KiB each, 300 MiB in all.
func TestCheckersAreFreed(t *testing.T) {
	inUse := func() int {
		var size, resident int
		if text, err := os.ReadFile("/proc/self/statm"); err != nil {
			t.Skip("no /proc/self/statm")
		} else if _, err := fmt.Sscan(string(text), &size, &resident); err != nil {
			t.Fatal(err)
		}
		return resident * os.Getpagesize()
	}
	for _, isClosed := range []bool{true, false} {
		before := inUse()
		for i := 0; i < 30000; i++ {
			checker := newChecker(t, nil)
			if _, err := checker.Write([]byte("\xa1\x65abc")); err != nil {
				t.Fatal(err)
			}
			if isClosed {
				checker.Close()
			} else if i%1000 == 0 {
				runtime.GC()
			}
		}
		if more := inUse() - before; more > 100<<20 {
			t.Errorf("%d MiB are in use, closed: %v", more>>20, isClosed)
		}
	}
}
