package naltvigo

import (
	"bufio"
	"encoding/hex"
	"errors"
	"fmt"
	"os"
	"strings"
	"testing"
)

// What another library returned of random inputs: fuzz/vectors.py writes the file that NALTVIGO_VECTORS names, and says what
// its lines are.
func TestVectors(t *testing.T) {
	name := os.Getenv("NALTVIGO_VECTORS")
	if name == "" {
		t.Skip("NALTVIGO_VECTORS names no file of fuzz/vectors.py")
	}
	file, err := os.Open(name)
	if err != nil {
		t.Fatal(err)
	}
	defer file.Close()
	scanner := bufio.NewScanner(file)
	scanner.Buffer(nil, 1<<22)
	before, count := []byte{0}, 0
	for ; scanner.Scan(); count++ {
		head, wanted, _ := strings.Cut(scanner.Text(), "|")
		var options Options
		var digits string
		if _, err := fmt.Sscan(head, &options.Order, &options.Keys, &options.Depth, &options.Bytes, &digits); err != nil {
			t.Fatal(head, err)
		}
		input, _ := hex.DecodeString(strings.TrimPrefix(digits, "-"))
		if found := results(before, input, &options); found != wanted {
			t.Fatalf("%s\nwanted %s\nfound  %s", head, wanted, found)
		}
		before = input
	}
	if scanner.Err() != nil || count < 1000 {
		t.Fatalf("%d lines, %v", count, scanner.Err())
	}
}

// results are the last seven columns of a line.
func results(before, input []byte, options *Options) string {
	canonical, err := Canonicalise(input, options)
	found := []string{result(err, bytesOr(canonical))}
	found = append(found, result(CheckValid(input, options), "-"), result(CheckCanonical(input, options), "-"))
	text, err := Diagnostic(input, options)
	found = append(found, result(err, bytesOr([]byte(text))))
	size, err := NextValid(input, options)
	found = append(found, result(err, fmt.Sprint(size)))
	size, err = NextCanonical(input, options)
	found = append(found, result(err, fmt.Sprint(size)))
	same, err := Same(before, input, options)
	var side *RefusedSide
	switch {
	case errors.As(err, &side) && side.Right:
		found = append(found, result(err, "1"))
	case err != nil:
		found = append(found, result(err, "0"))
	case same:
		found = append(found, "0 -")
	default:
		found = append(found, "6 -")
	}
	return strings.Join(found, "|")
}

func bytesOr(bytes []byte) string {
	if len(bytes) == 0 {
		return "-"
	}
	return hex.EncodeToString(bytes)
}

func result(err error, more string) string {
	var refused *Refused
	switch {
	case err == nil:
		return "0 " + more
	case errors.As(err, &refused):
		return fmt.Sprintf("1 %d %d %d %s", uint32(refused.Reason), refused.Offset, refused.Consumed, more)
	}
	return err.Error()
}
