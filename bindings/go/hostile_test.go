//go:build unix && !race

package naltvigo

import (
	"bytes"
	"fmt"
	"strings"
	"syscall"
	"testing"
	"time"
)

var wideLimits = Options{Bytes: 1 << 24, Depth: MaxDepth}

// The least processor time of some turns: other processes may run as well.
func leastTime(turns int, work func()) time.Duration {
	spent := func() time.Duration {
		var used syscall.Rusage
		if err := syscall.Getrusage(syscall.RUSAGE_SELF, &used); err != nil {
			panic(err)
		}
		return time.Duration(used.Utime.Nano() + used.Stime.Nano())
	}
	least := time.Duration(1 << 62)
	for ; turns > 0; turns-- {
		began := spent()
		work()
		if took := spent() - began; took < least {
			least = took
		}
	}
	return least
}

func mapOfKeys(count int, key func(n int) Value) []byte {
	pairs := make([]Pair, count)
	for n := range pairs {
		pairs[n] = Pair{key(n), Int(0)}
	}
	made, err := NewMap(pairs...)
	if err != nil {
		panic(err)
	}
	data, err := Marshal(made, &wideLimits)
	if err != nil {
		panic(err)
	}
	return data
}

// A map within a map, as its key, and so on, that differs at the bottom alone.
func tower(levels int, bottom Value) Value {
	for ; levels > 0; levels-- {
		made, err := NewMap(Pair{bottom, Int(0)})
		if err != nil {
			panic(err)
		}
		bottom = made
	}
	return bottom
}

// Decodes an item, gets each value of a map, makes it from its pairs, and encodes it.
func takeWhole(data []byte) {
	value, err := Unmarshal(data, &wideLimits)
	if err != nil {
		panic(err)
	}
	if found, ok := value.(Map); ok {
		for _, pair := range found.Pairs() {
			if _, ok := found.Get(pair.Key); !ok {
				panic("a key is missing")
			}
		}
		if _, err := NewMap(found.Pairs()...); err != nil {
			panic(err)
		}
	}
	if again, err := Marshal(value, &wideLimits); err != nil || !bytes.Equal(again, data) {
		panic("other bytes")
	}
}

func spread(n int) Value { return Unsigned(uint64(n) * 0x9e3779b97f4a7c15) }

// Maps of about this size, by name.
func chosenKeys(size int) map[string][]byte {
	start := strings.Repeat("x", 1000)
	return map[string][]byte{
		"integers":             mapOfKeys(size/6, func(n int) Value { return Int(int64(n)) }),
		"texts with one start": mapOfKeys(size/1012, func(n int) Value { return Text(start + fmt.Sprintf("%08d", n)) }),
		"arrays":               mapOfKeys(size/12, func(n int) Value { return Array{Int(1), spread(n)} }),
		"keys in keys":         mapOfKeys(size/75, func(n int) Value { return Array{Int(0), tower(30, Int(int64(n)<<32))} }),
	}
}

// A MiB of keys that a sender chose takes at most five times as long as one of harmless keys, and 2.5 times as long as four
// quarters of it: what is quadratic takes four times as long.
func TestAMebibyteOfChosenKeys(t *testing.T) {
	const size = 1 << 20
	cost := func(data []byte) time.Duration {
		return leastTime(2, func() { takeWhole(data) }) * size / time.Duration(len(data))
	}
	harmless := mapOfKeys(size/10, spread)
	quarters := chosenKeys(size / 4)
	for name, chosen := range chosenKeys(size) {
		isFair := false
		for attempt := 0; attempt < 3 && !isFair; attempt++ { // again if other processes disturbed it
			took, quarter, usual := cost(chosen), cost(quarters[name]), cost(harmless)
			isFair = took < 5*usual && took < 5*quarter/2+usual/10
			t.Logf("%s: %v, a quarter %v, harmless keys %v", name, took, quarter, usual)
		}
		if !isFair {
			t.Errorf("%s take too long", name)
		}
	}
}

// An item of 1 KiB takes at most a millisecond more than its check.
func TestAKibibyte(t *testing.T) {
	thousand := append(bytes.Repeat([]byte{0x81}, 1000), 0)
	check := func(data []byte) {
		if err := CheckValid(data, &wideLimits); err != nil {
			t.Fatal(err)
		}
	}
	// a millisecond; or on a slower processor, what takes one here: 100 checks of 1,000 arrays
	millisecond := leastTime(5, func() {
		for i := 0; i < 100; i++ {
			check(thousand)
		}
	})
	if millisecond < time.Millisecond {
		millisecond = time.Millisecond
	}
	for name, data := range map[string][]byte{
		"arrays":     thousand,
		"tags":       append(bytes.Repeat([]byte{0xc1}, 1000), 0),
		"values":     append(bytes.Repeat([]byte{0xa1, 0}, 500), 0),
		"keys":       append(bytes.Repeat([]byte{0xa1}, 500), make([]byte, 501)...),
		"two towers": mapOfKeys(2, func(n int) Value { return tower(250, Int(int64(n))) }),
		"integers":   mapOfKeys(340, func(n int) Value { return Int(int64(n)) }),
	} {
		beyond := leastTime(50, func() { takeWhole(data) }) - leastTime(50, func() { check(data) })
		t.Logf("%s: %v beyond its check", name, beyond)
		if beyond >= millisecond {
			t.Errorf("%s: %v beyond its check", name, beyond)
		}
	}
}
