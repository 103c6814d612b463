package naltvigo

import (
	"bytes"
	"io"
	"strings"
	"testing"
	"testing/iotest"
)

func around(numbers ...int) []int {
	var found []int
	for _, number := range numbers {
		found = append(found, number-1, number, number+1)
	}
	return found
}

// The shortest head of a major type and an argument (RFC 8949, section 3), up to four bytes of it.
func headOf(kind byte, number int) []byte {
	switch {
	case number < 24:
		return []byte{kind<<5 | byte(number)}
	case number < 256:
		return []byte{kind<<5 | 24, byte(number)}
	case number < 65536:
		return []byte{kind<<5 | 25, byte(number >> 8), byte(number)}
	}
	return []byte{kind<<5 | 26, byte(number >> 24), byte(number >> 16), byte(number >> 8), byte(number)}
}

// Arrays and maps of more items than the first table has space for, which are a quarter of the bytes and 16; and strings.
func TestThresholds(t *testing.T) {
	for _, count := range around(20, 21, 24, 64, 256, 4096, 16384, 65536) {
		array := make(Array, count)
		pairs := make([]Pair, count)
		for i := range array {
			array[i] = Int(int64(i % 24))
			pairs[i] = Pair{Int(int64(i)), Int(int64(-1 - i))}
		}
		made, err := NewMap(pairs...)
		if err != nil {
			t.Fatal(err)
		}
		mapBytes := headOf(5, count)
		for i := range pairs {
			mapBytes = append(append(mapBytes, headOf(0, i)...), headOf(1, i)...)
		}
		arrayBytes := headOf(4, count)
		for i := range array {
			arrayBytes = append(arrayBytes, byte(i%24))
		}
		text := strings.Repeat("x", count)
		for _, it := range []struct {
			value  Value
			wanted []byte
		}{
			{array, arrayBytes},
			{made, mapBytes},
			{Text(text), append(headOf(3, count), text...)},
			{Bytes(text), append(headOf(2, count), text...)},
		} {
			encoded, err := Marshal(it.value, nil)
			if err != nil || !bytes.Equal(encoded, it.wanted) {
				t.Errorf("%T of %d: %v", it.value, count, err)
			}
			if value, err := Unmarshal(it.wanted, nil); err != nil || !Equal(value, it.value) {
				t.Errorf("%T of %d: %v", it.value, count, err)
			}
		}
	}
}

// Items that end below, at and above the bytes that are read at once.
func TestReaderThresholds(t *testing.T) {
	for _, size := range around(16384, readSize, 2*readSize, 3*readSize) {
		payload := size - 3
		if payload > 65535 {
			payload = size - 5
		}
		item := append(headOf(2, payload), make([]byte, payload)...)
		if len(item) != size {
			t.Fatal(len(item), size)
		}
		input := append(append(append([]byte{}, item...), 0), item...)
		for _, from := range []io.Reader{bytes.NewReader(input), iotest.HalfReader(bytes.NewReader(input))} {
			reader := NewReader(from, nil)
			for _, wanted := range [][]byte{item, {0}, item} {
				if found, err := reader.Next(); err != nil || !bytes.Equal(found, wanted) {
					t.Errorf("%d: %d bytes, %v", size, len(found), err)
				}
			}
			if _, err := reader.Next(); err != io.EOF {
				t.Errorf("%d: %v at the end", size, err)
			}
		}
	}
}
