package naltvigo

import (
	"bytes"
	"errors"
	"io"
	"testing"
	"testing/iotest"
)

// The items 24, "abc", {_ "Fun": true, "Amt": -2}, h” of 70,000 bytes, and 0.
func sequence() (whole []byte, items [][]byte) {
	long := append([]byte{0x5a, 0, 1, 0x11, 0x70}, make([]byte, 70000)...)
	items = [][]byte{{0x18, 0x18}, []byte("\x63abc"), []byte("\xbf\x63Fun\xf5\x63Amt\x21\xff"), long, {0}}
	return bytes.Join(items, nil), items
}

func TestReader(t *testing.T) {
	whole, items := sequence()
	for name, from := range map[string]io.Reader{
		"whole":      bytes.NewReader(whole),
		"one byte":   iotest.OneByteReader(bytes.NewReader(whole)),
		"half":       iotest.HalfReader(bytes.NewReader(whole)),
		"data error": iotest.DataErrReader(bytes.NewReader(whole)),
	} {
		reader, offset := NewReader(from, nil), uint64(0)
		for _, item := range items {
			if reader.Offset() != offset {
				t.Errorf("%s: offset %d, wanted %d", name, reader.Offset(), offset)
			}
			found, err := reader.Next()
			if err != nil || !bytes.Equal(found, item) {
				t.Fatalf("%s: wanted %x, found %x, %v", name, item, found, err)
			}
			offset += uint64(len(item))
		}
		for range "ab" {
			if found, err := reader.Next(); err != io.EOF || found != nil {
				t.Errorf("%s: at the end: %x, %v", name, found, err)
			}
		}
	}
}

func TestReaderRefuses(t *testing.T) {
	for _, it := range []struct {
		name    string
		input   string
		make    func(io.Reader, *Options) *Reader
		options *Options
		offset  uint64
		wanted  *Refused
	}{
		{"0, and an array without its members", "\x00\x82\x01", NewReader, nil, 1, refusal(Truncated, 2, 2)},
		{"0, and a float", "\x00\xf9\x00\x00", NewReader, nil, 1, refusal(Float, 0, 1)},
		{"{0: 0, 0: 0}", "\xa2\x00\x00\x00\x00", NewReader, nil, 0, refusal(RepeatedKey, 3, 4)},
		{"0 in two bytes", "\x00\x18\x00", NewCanonicalReader, nil, 1, refusal(NotShortest, 0, 2)},
		{"3 bytes, of 2", "\x62ab", NewReader, &Options{Bytes: 2, Depth: 1}, 0, refusal(TooLong, 2, 2)},
	} {
		for _, from := range []io.Reader{bytes.NewReader([]byte(it.input)), iotest.OneByteReader(bytes.NewReader([]byte(it.input)))} {
			reader := it.make(from, it.options)
			if it.offset == 1 {
				if found, err := reader.Next(); err != nil || !bytes.Equal(found, []byte{0}) {
					t.Errorf("%s: %x, %v", it.name, found, err)
				}
			}
			for range "ab" {
				found, err := reader.Next()
				var refused *Refused
				if found != nil || !errors.As(err, &refused) || refused.Reason != it.wanted.Reason || refused.Offset != it.wanted.Offset || reader.Offset() != it.offset {
					t.Errorf("%s: %x, %v, at %d", it.name, found, err, reader.Offset())
				}
			}
		}
	}
}

// An item that is not canonical is refused at the first wrong byte, without a further read.
func TestNoByteAfterAWrongOne(t *testing.T) {
	for _, it := range []struct {
		input  string
		wanted *Refused
	}{
		{"\x83\x18\x00", refusal(NotShortest, 1, 3)},
		{"\xa2\x61b\x00\x61a", refusal(KeyOrder, 4, 6)},
		{"\x82\x62a\xff", refusal(InvalidText, 3, 4)},
		{"\x82\x00\x9f", refusal(Indefinite, 2, 3)},
	} {
		// after two items that come in several reads too
		input := "\x82\x01\x02" + "\x62ab" + it.input
		var reads []string
		for i := 0; i < len(input); i++ {
			reads = append(reads, input[i:i+1])
		}
		from := &failing{append(reads, ""), append(make([]error, len(input)), errors.New("it is read on"))}
		reader := NewCanonicalReader(from, nil)
		for _, wanted := range []string{"\x82\x01\x02", "\x62ab"} {
			if found, err := reader.Next(); string(found) != wanted || err != nil {
				t.Errorf("%x, %v", found, err)
			}
		}
		_, err := reader.Next()
		expectRefused(t, it.input, err, it.wanted)
		if len(from.reads) != 1 {
			t.Errorf("%x: %d reads are left", it.input, len(from.reads))
		}
	}
}

// failing returns the results of its reads one after another: bytes, an error, or both.
type failing struct {
	reads []string
	errs  []error
}

func (from *failing) Read(to []byte) (int, error) {
	if len(from.reads) == 0 {
		return 0, io.EOF
	}
	read, err := from.reads[0], from.errs[0]
	from.reads, from.errs = from.reads[1:], from.errs[1:]
	return copy(to, read), err
}

func TestReaderGoesOnAfterAnError(t *testing.T) {
	lost := errors.New("lost")
	reader := NewReader(&failing{[]string{"\x82", "", "\x01", "\x02\x03"}, []error{nil, lost, lost, nil}}, nil)
	for _, wanted := range []struct {
		item string
		err  error
	}{{"", lost}, {"", lost}, {"\x82\x01\x02", nil}, {"\x03", nil}, {"", io.EOF}} {
		if found, err := reader.Next(); string(found) != wanted.item || err != wanted.err {
			t.Errorf("wanted %x, %v, found %x, %v", wanted.item, wanted.err, found, err)
		}
	}
	if _, err := NewReader(&failing{make([]string, 1000), make([]error, 1000)}, nil).Next(); err != io.ErrNoProgress {
		t.Errorf("a reader that gives nothing: %v", err)
	}
	if _, err := NewReader(bytes.NewReader([]byte{0x82}), &Options{Depth: MaxDepth + 1}).Next(); err != ErrOptions {
		t.Errorf("limits out of range: %v", err)
	}
}
