package naltvigo

import (
	"bytes"
	"encoding/hex"
	"errors"
	"os"
	"path/filepath"
	"strconv"
	"strings"
	"testing"
)

// lines are the rows of the repository's conformance tables with this many columns, whose text says what they are.
func lines(t *testing.T, columns int) [][]string {
	t.Helper()
	files, _ := filepath.Glob("../../crates/cbor_reader_tests/src/tests/*_table.rt")
	if len(files) == 0 {
		t.Skip("the tables are not in a module's archive")
	}
	var found [][]string
	for _, file := range files {
		text, err := os.ReadFile(file)
		if err != nil {
			t.Fatal(err)
		}
		for _, line := range strings.Split(string(text), "\n") {
			parts := strings.SplitN(line, "|", 5)
			if strings.HasPrefix(line, "//") || len(parts) != columns {
				continue
			}
			for i := range parts {
				parts[i] = strings.TrimSpace(parts[i])
			}
			found = append(found, parts)
		}
	}
	return found
}

// unhex is the bytes of hex digits; 3*00 is 000000.
func unhex(t *testing.T, column string) []byte {
	t.Helper()
	digits := ""
	for _, word := range strings.Fields(column) {
		if count, repeated, ok := strings.Cut(word, "*"); ok {
			times, _ := strconv.Atoi(count)
			word = strings.Repeat(repeated, times)
		}
		digits += word
	}
	found, err := hex.DecodeString(digits)
	if err != nil {
		t.Fatal(err)
	}
	return found
}

// optionsOf are the limits of a column as `depth 1, bytes 4, keys basic`.
func optionsOf(t *testing.T, column string, order Order) *Options {
	t.Helper()
	options := Options{Bytes: 1 << 20, Depth: 256, Order: order}
	words := strings.Fields(strings.ReplaceAll(column, ",", " "))
	for i := 0; i+1 < len(words); i += 2 {
		number, _ := strconv.ParseUint(words[i+1], 10, 64)
		switch words[i] {
		case "depth":
			options.Depth = uint32(number)
		case "bytes":
			options.Bytes = number
		case "keys":
			options.Keys = IntegersAndTexts
		}
	}
	return &options
}

func refusal(reason Reason, offset, consumed uint64) *Refused {
	return &Refused{Reason: reason, Offset: offset, Consumed: consumed}
}

// refusalOf is the refusal of a column as `12 Trailing at 1, read 1`, or nil.
func refusalOf(column string) *Refused {
	words := strings.Fields(strings.ReplaceAll(column, ",", ""))
	if len(words) != 6 || words[2] != "at" {
		return nil
	}
	var numbers [3]uint64
	for i, word := range []string{words[0], words[3], words[5]} {
		numbers[i], _ = strconv.ParseUint(word, 10, 64)
	}
	return refusal(Reason(numbers[0]), numbers[1], numbers[2])
}

// byOrder is the part of a column for an order.
func byOrder(column string, order Order) string {
	parts := strings.Split(column, "/")
	if len(parts) == 1 {
		return column
	}
	return strings.TrimSpace(parts[order])
}

// expectRefused compares an error with a refusal, nil for none.
func expectRefused(t *testing.T, what string, err error, wanted *Refused) {
	t.Helper()
	var found *Refused
	if wanted == nil {
		if err != nil {
			t.Errorf("%s: %v", what, err)
		}
	} else if !errors.As(err, &found) || *refusal(found.Reason, found.Offset, found.Consumed) != *wanted {
		t.Errorf("%s: wanted %+v, found %+v", what, wanted, err)
	} else if found.Sentence == "" || found.Advice == "" || !strings.HasPrefix(found.Path, "$") || !strings.Contains(err.Error(), found.Reason.String()) {
		t.Errorf("%s: the error says %q", what, err)
	}
}

func TestRows(t *testing.T) {
	rows := lines(t, 5)
	if len(rows) < 200 {
		t.Fatalf("%d rows", len(rows))
	}
	for _, row := range rows {
		for _, order := range []Order{Bytewise, LengthFirst} {
			testRow(t, row, order)
		}
	}
}

func testRow(t *testing.T, row []string, order Order) {
	input, options := unhex(t, row[0]), optionsOf(t, row[1], order)
	becomes, strict := byOrder(row[2], order), byOrder(row[3], order)
	wanted := refusalOf(becomes)
	canonical := input
	if wanted == nil && becomes != "same" {
		canonical = unhex(t, becomes)
	}
	what := row[0] + " " + row[1]

	found, err := Canonicalise(input, options)
	expectRefused(t, what+": Canonicalise", err, wanted)
	if err == nil && !bytes.Equal(found, canonical) {
		t.Errorf("%s: Canonicalise: %x", what, found)
	}
	value, err := Unmarshal(input, options)
	expectRefused(t, what+": Unmarshal", err, wanted)
	if err == nil {
		found, err = Marshal(value, options)
		if err != nil || !bytes.Equal(found, canonical) {
			t.Errorf("%s: Marshal: %x, %v", what, found, err)
		}
	}
	if wanted == nil || wanted.Reason != CanonicalTooLong {
		expectRefused(t, what+": CheckValid", CheckValid(input, options), wanted)
	}
	expectRefused(t, what+": CheckCanonical", CheckCanonical(input, options), strictRefusal(becomes, strict, len(input)))
	_, err = Open(input, options)
	expectRefused(t, what+": Open", err, strictRefusal(becomes, strict, len(input)))
}

// strictRefusal is what columns 3 and 4 say of CheckCanonical.
func strictRefusal(becomes, strict string, size int) *Refused {
	if taken := strings.TrimPrefix(strict, "taken "); taken != strict {
		count, _ := strconv.Atoi(taken)
		if count == size {
			return nil
		}
		return refusal(Trailing, uint64(count), uint64(count))
	}
	if strict != "" && strict != "same" {
		return refusalOf(strict)
	}
	if strict == "same" || becomes == "same" {
		return nil
	}
	return refusalOf(becomes)
}

func TestPairs(t *testing.T) {
	pairs := lines(t, 4)
	if len(pairs) < 5 {
		t.Fatalf("%d pairs", len(pairs))
	}
	for _, pair := range pairs {
		left, right := unhex(t, pair[0]), unhex(t, pair[1])
		same, err := Same(left, right, nil)
		side, refusal, _ := strings.Cut(pair[2], " ")
		switch wanted := refusalOf(refusal); {
		case wanted == nil:
			if err != nil || same != (pair[2] == "same") {
				t.Errorf("%v: %v, %v", pair, same, err)
			}
		default:
			expectRefused(t, pair[0], err, wanted)
			var refused *RefusedSide
			if !errors.As(err, &refused) || refused.Right != (side == "right") || !strings.Contains(err.Error(), side) {
				t.Errorf("%v: %v", pair, err)
			}
		}
	}
}
