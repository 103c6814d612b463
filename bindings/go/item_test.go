package naltvigo

import (
	"bytes"
	"errors"
	"math"
	"testing"
)

// {1: "as.example", 4: 1444064944, "of": {-1: h'0b71', "yes": true, [0]: 7(null)}, "list": [10, -1, "x"], "max": 2^64-1}
func open(t *testing.T, order Order) Item {
	t.Helper()
	inner := newMap(t, Pair{Int(-1), Bytes("\x0b\x71")}, Pair{Text("yes"), True}, Pair{Array{Int(0)}, Tag{7, Null}})
	value := newMap(t, Pair{Int(1), Text("as.example")}, Pair{Int(4), Int(1444064944)}, Pair{Text("of"), inner},
		Pair{Text("list"), Array{Int(10), Int(-1), Text("x")}}, Pair{Text("max"), Unsigned(math.MaxUint64)})
	options := DefaultOptions()
	options.Order = order
	encoded, err := Marshal(value, &options)
	if err != nil {
		t.Fatal(err)
	}
	item, err := Open(encoded, &options)
	if err != nil {
		t.Fatal(err)
	}
	if again, err := item.Value(); err != nil || !Equal(again, value) {
		t.Errorf("the value of an item: %v, %v", again, err)
	}
	return item
}

// expect compares what a getter returns.
func expect[T comparable](t *testing.T, what string, found T, err error, wanted T, wantedErr error) {
	t.Helper()
	if field, is := err.(*FieldError); is {
		err = field.Cause
	}
	if err != wantedErr || (err == nil && found != wanted) {
		t.Errorf("%s: %v, %v", what, found, err)
	}
}

func TestItem(t *testing.T) {
	for _, order := range []Order{Bytewise, LengthFirst} {
		item := open(t, order)
		text, err := item.GetText(Int(1))
		expect(t, "text", text, err, "as.example", nil)
		expires, err := item.GetInt64(Int(4))
		expect(t, "integer", expires, err, 1444064944, nil)
		most, err := item.GetUint64(Text("max"))
		expect(t, "uint64", most, err, math.MaxUint64, nil)
		_, err = item.GetInt64(Text("max"))
		expect(t, "int64 of 2^64-1", 0, err, 0, ErrOutOfRange)
		_, err = item.GetText(Int(2))
		expect(t, "no such key", 0, err, 0, ErrNotFound)
		_, err = item.GetText(Text("\xff"))
		if err == nil {
			t.Error("a key that is no UTF-8")
		}
		_, err = item.GetBool(Int(1))
		expect(t, "a text as a boolean", 0, err, 0, ErrWrongKind)
		_, err = item.GetUint64(Int(1))
		expect(t, "a text as an integer", 0, err, 0, ErrWrongKind)
		_, err = item.GetBytes(Int(1))
		expect(t, "a text as bytes", 0, err, 0, ErrWrongKind)
		testInner(t, item)
		testMembers(t, item)
	}
}

func TestFieldErrors(t *testing.T) {
	item := open(t, Bytewise)
	int64Of := func(key Value) error { _, err := item.GetInt64(key); return err }
	uint64Of := func(key Value) error { _, err := item.GetUint64(key); return err }
	boolOf := func(key Value) error { _, err := item.GetBool(key); return err }
	textOf := func(key Value) error { _, err := item.GetText(key); return err }
	bytesOf := func(key Value) error { _, err := item.GetBytes(key); return err }
	for _, row := range []struct {
		err    error
		cause  error
		wanted string
	}{
		{textOf(Int(2)), ErrNotFound, `naltvigo: at key 2: no such key or member`},
		{textOf(Array{Text("a")}), ErrNotFound, `naltvigo: at key ["a"]: no such key or member`},
		{int64Of(Text("max")), ErrOutOfRange, `naltvigo: at key "max": the integer does not fit the type`},
		{uint64Of(Int(1)), ErrWrongKind, `naltvigo: at key 1: an item of another kind`},
		{boolOf(Int(1)), ErrWrongKind, `naltvigo: at key 1: an item of another kind`},
		{bytesOf(Int(1)), ErrWrongKind, `naltvigo: at key 1: an item of another kind`},
		{textOf(nil), ErrWrongKind, `naltvigo: at a key: an item of another kind`},
	} {
		if !errors.Is(row.err, row.cause) || row.err.Error() != row.wanted {
			t.Errorf("wanted %s, found %v", row.wanted, row.err)
		}
	}
}

func testInner(t *testing.T, item Item) {
	inner, err := item.Get(Text("of"))
	expect(t, "the map", inner.Kind(), err, KindMap, nil)
	expect(t, "its pairs", inner.Len(), nil, 3, nil)
	key, err := inner.GetBytes(Int(-1))
	expect(t, "bytes", string(key), err, "\x0b\x71", nil)
	yes, err := inner.GetBool(Text("yes"))
	expect(t, "boolean", yes, err, true, nil)
	_, err = inner.GetText(Int(-1))
	expect(t, "bytes as a text", 0, err, 0, ErrWrongKind)
	tag, err := inner.Get(Array{Int(0)})
	expect(t, "the tag", tag.Kind(), err, KindTag, nil)
	number, content, err := tag.Tag()
	expect(t, "its number", number, err, 7, nil)
	expect(t, "its content", content.String(), nil, "null", nil)
	expect(t, "its bytes", string(tag.Encoded()), nil, "\xc7\xf6", nil)
	_, err = content.Bool()
	expect(t, "null as a boolean", 0, err, 0, ErrWrongKind)
	_, _, err = content.Tag()
	expect(t, "null as a tag", 0, err, 0, ErrWrongKind)
	_, err = content.Get(Int(0))
	expect(t, "null as a map", 0, err, 0, ErrWrongKind)
	_, err = content.At(0)
	expect(t, "null as an array", 0, err, 0, ErrWrongKind)
	expect(t, "the members of null", content.Members().Next(), nil, false, nil)
	expect(t, "the length of null", content.Len(), nil, 0, nil)
}

func testMembers(t *testing.T, item Item) {
	list, err := item.Get(Text("list"))
	expect(t, "the array", list.Len(), err, 3, nil)
	last, err := list.At(2)
	expect(t, "its last member", last.String(), err, `"x"`, nil)
	_, err = list.At(3)
	expect(t, "one more", 0, err, 0, ErrNotFound)
	second, err := list.At(1)
	expect(t, "its second", second.String(), err, "-1", nil)
	_, err = second.Uint64()
	expect(t, "-1 as uint64", 0, err, 0, ErrOutOfRange)
	var joined []byte
	members := item.Members()
	count := 0
	for members.Next() {
		joined = append(joined, members.Item().Encoded()...)
		count++
	}
	if count != 10 || !bytes.Equal(append([]byte{0xa5}, joined...), item.Encoded()) {
		t.Errorf("%d members: %x", count, joined)
	}
}

func TestOpenRefuses(t *testing.T) {
	_, err := Open([]byte{0x18, 0x00}, nil)
	expectRefused(t, "Open", err, refusal(NotShortest, 0, 2))
	if LibraryVersion() != 0x20000 {
		t.Errorf("version %x", LibraryVersion())
	}
}

// Calls may be made from any number of goroutines; the race detector watches.
func TestGoroutines(t *testing.T) {
	input, wanted := []byte("\xbf\x63Fun\xf5\x63Amt\x21\xff"), "\xa2\x63Amt\x21\x63Fun\xf5"
	done := make(chan string)
	for i := 0; i < 8; i++ {
		go func() {
			found := wanted
			for k := 0; k < 1000 && found == wanted; k++ {
				out, err := Canonicalise(input, nil)
				if found = string(out); err != nil {
					found = err.Error()
				}
			}
			done <- found
		}()
	}
	for i := 0; i < 8; i++ {
		if found := <-done; found != wanted {
			t.Errorf("%x", found)
		}
	}
}
