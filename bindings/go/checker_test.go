package naltvigo

import (
	"bufio"
	"bytes"
	"errors"
	"fmt"
	"io"
	"strings"
	"testing"
	"testing/iotest"
)

// said is what a checker says of the first bytes of an item: that it is complete with this length, -1 if it is not, or why
// it is refused.
type said struct {
	length int
	why    Refused // the reason, the offset and the count
}

func refusedAs(err error) Refused {
	var found *Refused
	if !errors.As(err, &found) {
		panic(err)
	}
	return *refusal(found.Reason, found.Offset, found.Consumed)
}

// saidOf is what CheckCanonical says of these bytes.
func saidOf(input []byte, options *Options) said {
	err := CheckCanonical(input, options)
	if err == nil {
		return said{length: len(input)}
	}
	why := refusedAs(err)
	switch why.Reason {
	case Truncated:
		return said{length: -1}
	case Trailing:
		return said{length: int(why.Offset)}
	}
	return said{why: why}
}

func saidOfPrefixes(input []byte, options *Options) []said {
	found := make([]said, len(input)+1)
	for end := range found {
		found[end] = saidOf(input[:end], options)
	}
	return found
}

// inParts feeds the parts that end at these offsets, and says that the bytes ended.
func inParts(t *testing.T, checker *Checker, input []byte, ends []int, prefixes []said) {
	t.Helper()
	from := 0
	for _, end := range ends {
		wanted, consumed := prefixes[end], end
		used, err := checker.Feed(input[from:end])
		switch {
		case wanted.why.Reason != 0:
			consumed = int(wanted.why.Consumed)
			if err == nil || refusedAs(err) != wanted.why {
				t.Fatalf("%x in %v: %v at %d, wanted %+v", input, ends, err, end, wanted.why)
			}
		case err != nil:
			t.Fatalf("%x in %v: %v at %d", input, ends, err, end)
		case wanted.length >= 0:
			consumed = wanted.length
		}
		if used > end-from || int(checker.Consumed()) != consumed || checker.Complete() != (wanted.why.Reason == 0 && wanted.length >= 0) {
			t.Fatalf("%x in %v: %d used of %d at %d, complete: %v", input, ends, checker.Consumed(), consumed, end, checker.Complete())
		}
		from = end
	}
	err := checker.End()
	switch wanted := prefixes[from]; {
	case wanted.why.Reason != 0:
		if err == nil || refusedAs(err) != wanted.why {
			t.Fatalf("%x in %v: %v at the end, wanted %+v", input, ends, err, wanted.why)
		}
	case wanted.length < 0:
		if err == nil || refusedAs(err) != *refusal(Truncated, uint64(from), uint64(from)) {
			t.Fatalf("%x in %v: %v at the end", input, ends, err)
		}
	case err != nil:
		t.Fatalf("%x in %v: %v at the end", input, ends, err)
	}
}

func newChecker(t *testing.T, options *Options) *Checker {
	t.Helper()
	checker, err := NewChecker(options)
	if err != nil {
		t.Fatal(err)
	}
	return checker
}

func TestRowsCutAtEveryByte(t *testing.T) {
	for _, row := range lines(t, 5) {
		input := unhex(t, row[0])
		for _, order := range []Order{Bytewise, LengthFirst} {
			options := optionsOf(t, row[1], order)
			prefixes := saidOfPrefixes(input, options)
			checker := newChecker(t, options)
			each := []int{}
			for cut := 0; cut <= len(input); cut++ {
				each = append(each, cut)
				for next := cut; next == cut || (len(input) <= 12 && next <= len(input)); next++ {
					inParts(t, checker, input, []int{cut, next, len(input)}, prefixes)
					checker.Restart()
				}
			}
			inParts(t, checker, input, each, prefixes)
			checker.Close()
			becomes, strict := byOrder(row[2], order), byOrder(row[3], order)
			wanted := strictRefusal(becomes, strict, len(input))
			_, err := CheckReader(iotest.OneByteReader(bytes.NewReader(input)), options)
			expectRefused(t, row[0]+" "+row[1]+": CheckReader", err, wanted)
		}
	}
}

// Towers of 1,024 levels, byte by byte, and one level more.
func TestAThousandLevels(t *testing.T) {
	options := Options{Bytes: 1 << 20, Depth: MaxDepth}
	for _, tower := range []struct {
		level, leaf string
		values      int // after the leaf, for each level
		last        uint64
	}{{"\x81", "\x00", 0, 1024}, {"\xc1", "\x00", 0, 1024}, {"\xa1\x00", "\x00", 0, 2048}, {"\xa1", "\x00", 1, 1024}} {
		bytesOf := func(levels int) []byte {
			return []byte(strings.Repeat(tower.level, levels) + tower.leaf + strings.Repeat("\x00", tower.values*levels))
		}
		checker := newChecker(t, &options)
		input := bytesOf(1024)
		for i := range input {
			used, err := checker.Write(input[i : i+1])
			if used != 1 || err != nil || checker.Complete() != (i == len(input)-1) {
				t.Fatalf("%x: %d, %v at %d", tower.level, used, err, i)
			}
		}
		if err := checker.End(); err != nil {
			t.Errorf("%x: %v", tower.level, err)
		}
		checker.Restart()
		_, err := checker.Write(bytesOf(1025))
		expectRefused(t, tower.level, err, refusal(TooDeep, tower.last, tower.last+1))
	}
}

// {"aa..a": 0, "aa..b": 0}, of keys of 1 MiB, and the same with the second key before the first.
func TestKeysOfAMebibyte(t *testing.T) {
	const key = 1 << 20
	pair := func(last string) string { return "\x7a\x00\x10\x00\x00" + strings.Repeat("a", key-1) + last + "\x00" }
	good, bad := "\xa2"+pair("a")+pair("b"), "\xa2"+pair("b")+pair("a")
	second := uint64(1 + 5 + key + 1)
	for _, size := range []int{1400, 65536, len(good)} {
		options := Options{Bytes: 1 << 24, Depth: 1}
		feed := func(input string) error {
			checker := newChecker(t, &options)
			defer checker.Close()
			for from := 0; from < len(input); from += size {
				end := from + size
				if end > len(input) {
					end = len(input)
				}
				if _, err := checker.Write([]byte(input[from:end])); err != nil {
					return err
				}
			}
			return checker.End()
		}
		if err := feed(good); err != nil {
			t.Errorf("by %d: %v", size, err)
		}
		expectRefused(t, fmt.Sprint("by ", size), feed(bad), refusal(KeyOrder, second, second+5+key))
	}
}

func TestARefusalStays(t *testing.T) {
	checker := newChecker(t, nil)
	if used, err := checker.Write([]byte("\x83\x00")); used != 2 || err != nil {
		t.Fatal(used, err)
	}
	for i, part := range []string{"\xf9\x00", "", "\x00", "\xff\xff"} {
		used, err := checker.Write([]byte(part))
		expectRefused(t, part, err, refusal(Float, 2, 3))
		expectRefused(t, part, checker.End(), refusal(Float, 2, 3))
		if (used == 1) != (i == 0) || checker.Consumed() != 3 || checker.Complete() {
			t.Errorf("%x: %d used", part, used)
		}
	}
	checker.Restart()
	if used, err := checker.Write([]byte{0x80}); used != 1 || err != nil || checker.End() != nil || checker.Consumed() != 1 {
		t.Error(used, err)
	}
}

// The end of an item that is not complete is Truncated at the number of bytes fed, and bytes that follow are taken.
func TestEndOfAnUnfinishedItem(t *testing.T) {
	checker := newChecker(t, nil)
	item := "\xa2\x61a\x01\x61b\x82\x18\x64\x62\xc3\xa9" // {"a": 1, "b": [100, "é"]}
	for fed := 0; fed < len(item); fed++ {
		for range "ab" {
			expectRefused(t, "End", checker.End(), refusal(Truncated, uint64(fed), uint64(fed)))
		}
		if used, err := checker.Write([]byte(item[fed : fed+1])); used != 1 || err != nil {
			t.Fatal(fed, used, err)
		}
	}
	if err := checker.End(); err != nil || !checker.Complete() {
		t.Error(err)
	}
}

func TestBytesAfterAnItem(t *testing.T) {
	checker := newChecker(t, nil)
	if used, err := checker.Feed([]byte("\x82\x01\x02\x03")); used != 3 || err != nil || !checker.Complete() {
		t.Error(used, err)
	}
	// Feed leaves them
	if used, err := checker.Feed([]byte{3}); used != 0 || err != nil || checker.End() != nil {
		t.Error(used, err)
	}
	if used, err := checker.Write(nil); used != 0 || err != nil {
		t.Error(used, err)
	}
	for range "ab" {
		used, err := checker.Write([]byte{3})
		expectRefused(t, "Write", err, refusal(Trailing, 3, 3))
		expectRefused(t, "End", checker.End(), refusal(Trailing, 3, 3))
		if _, err := checker.Feed(nil); used != 0 || err == nil || !checker.Complete() {
			t.Error(used, err)
		}
	}
	checker.Restart()
	used, err := checker.Write([]byte("\x82\x01\x02\x03"))
	expectRefused(t, "Write", err, refusal(Trailing, 3, 3))
	if used != 3 {
		t.Error(used)
	}
	checker.Restart()
	buffered := bufio.NewWriter(checker)
	buffered.WriteString("\x82\x01\x02\x03")
	expectRefused(t, "Flush", buffered.Flush(), refusal(Trailing, 3, 3))
}

// All options reach the library, also after a restart.
func TestCheckerOptions(t *testing.T) {
	set := func(change func(*Options)) *Options {
		options := DefaultOptions()
		change(&options)
		return &options
	}
	// {100: 0, -1: 0} and {-1: 0, 100: 0}
	bytewise, lengthFirst := "\xa2\x18\x64\x00\x20\x00", "\xa2\x20\x00\x18\x64\x00"
	for _, it := range []struct {
		options *Options
		input   string
		wanted  *Refused
	}{
		{nil, bytewise, nil},
		{nil, lengthFirst, refusal(KeyOrder, 3, 5)},
		{set(func(options *Options) { options.Order = LengthFirst }), bytewise, refusal(KeyOrder, 4, 5)},
		{set(func(options *Options) { options.Order = LengthFirst }), lengthFirst, nil},
		{nil, "\xa1\x80\x00", nil},
		{set(func(options *Options) { options.Keys = IntegersAndTexts }), "\xa1\x80\x00", refusal(KeyKind, 1, 2)},
		{set(func(options *Options) { options.Depth = 1 }), "\x81\x80", refusal(TooDeep, 1, 2)},
		{set(func(options *Options) { options.Bytes = 2 }), "\x62ab", refusal(TooLong, 2, 2)},
	} {
		checker := newChecker(t, it.options)
		for range "ab" {
			_, err := io.Copy(checker, iotest.OneByteReader(strings.NewReader(it.input)))
			if err == nil {
				err = checker.End()
			}
			expectRefused(t, it.input, err, it.wanted)
			checker.Restart()
		}
	}
	for _, change := range []func(*Options){func(options *Options) { options.Order = 2 }, func(options *Options) { options.Depth = MaxDepth + 1 }} {
		if checker, err := NewChecker(set(change)); checker != nil || err != ErrOptions {
			t.Error(checker, err)
		}
		if _, err := CheckReader(strings.NewReader("\x00"), set(change)); err != ErrOptions {
			t.Error(err)
		}
	}
}

func TestCheckReader(t *testing.T) {
	lost := errors.New("lost")
	for _, it := range []struct {
		from   io.Reader
		count  int64
		wanted *Refused
		err    error
	}{
		{strings.NewReader("\x82\x01\x02"), 3, nil, nil},
		{iotest.DataErrReader(strings.NewReader("\x82\x01\x02")), 3, nil, nil},
		{strings.NewReader(""), 0, refusal(Truncated, 0, 0), nil},
		{iotest.HalfReader(strings.NewReader("\x82\x01")), 2, refusal(Truncated, 2, 2), nil},
		{strings.NewReader("\x81\x01\xff"), 2, refusal(Trailing, 2, 2), nil},
		{iotest.OneByteReader(strings.NewReader("\x81\x01\xff")), 2, refusal(Trailing, 2, 2), nil},
		{&failing{[]string{"\x82\x18\x01", ""}, []error{nil, lost}}, 3, refusal(NotShortest, 1, 3), nil},
		{&failing{[]string{"\x82", ""}, []error{nil, lost}}, 1, nil, lost},
		{&failing{[]string{"\x80", ""}, []error{lost, nil}}, 1, nil, lost},
	} {
		count, err := CheckReader(it.from, nil)
		if count != it.count || (it.wanted == nil && err != it.err) {
			t.Errorf("%d, %v, wanted %d, %v", count, err, it.count, it.err)
		}
		if it.wanted != nil {
			expectRefused(t, "CheckReader", err, it.wanted)
		}
	}
}

func TestClosedChecker(t *testing.T) {
	checker := newChecker(t, nil)
	again := *checker
	if _, err := checker.Write([]byte("\x80\x80")); err == nil {
		t.Error("a byte that follows is accepted")
	}
	for range "ab" {
		if err := checker.Close(); err != nil {
			t.Error(err)
		}
		for _, it := range []*Checker{checker, &again} {
			if used, err := it.Write([]byte{0}); used != 0 || err != ErrClosed || it.Complete() {
				t.Error(used, err)
			}
			if err := it.End(); err != ErrClosed {
				t.Error(err)
			}
			it.Restart()
		}
	}
}
