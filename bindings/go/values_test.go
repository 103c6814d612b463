package naltvigo

import (
	"bytes"
	"errors"
	"fmt"
	"math"
	"testing"
)

func newMap(t testing.TB, pairs ...Pair) Map {
	t.Helper()
	made, err := NewMap(pairs...)
	if err != nil {
		t.Fatal(err)
	}
	return made
}

// The examples of RFC 8949, appendix A, without floats and bignums, in canonical bytes.
func TestAppendix(t *testing.T) {
	to25 := make(Array, 25)
	for i := range to25 {
		to25[i] = Unsigned(i + 1)
	}
	for _, it := range []struct {
		value Value
		bytes string
		text  string
	}{
		{Int(0), "\x00", "0"},
		{Int(23), "\x17", "23"},
		{Int(24), "\x18\x18", "24"},
		{Int(100), "\x18\x64", "100"},
		{Int(1000), "\x19\x03\xe8", "1000"},
		{Int(1000000), "\x1a\x00\x0f\x42\x40", "1000000"},
		{Int(1000000000000), "\x1b\x00\x00\x00\xe8\xd4\xa5\x10\x00", "1000000000000"},
		{Unsigned(math.MaxUint64), "\x1b\xff\xff\xff\xff\xff\xff\xff\xff", "18446744073709551615"},
		{Negative(math.MaxUint64), "\x3b\xff\xff\xff\xff\xff\xff\xff\xff", "-18446744073709551616"},
		{Int(-1), "\x20", "-1"},
		{Int(-100), "\x38\x63", "-100"},
		{Int(-1000), "\x39\x03\xe7", "-1000"},
		{False, "\xf4", "false"},
		{Bool(true), "\xf5", "true"},
		{Null, "\xf6", "null"},
		{Undefined, "\xf7", "undefined"},
		{Simple(16), "\xf0", "simple(16)"},
		{Simple(255), "\xf8\xff", "simple(255)"},
		{Tag{0, Text("2013-03-21T20:04:00Z")}, "\xc0\x74" + "2013-03-21T20:04:00Z", `0("2013-03-21T20:04:00Z")`},
		{Tag{1, Int(1363896240)}, "\xc1\x1a\x51\x4b\x67\xb0", "1(1363896240)"},
		{Tag{23, Bytes("\x01\x02\x03\x04")}, "\xd7\x44\x01\x02\x03\x04", "23(h'01020304')"},
		{Bytes{}, "\x40", "h''"},
		{Text(""), "\x60", `""`},
		{Text("\"\\"), "\x62\x22\x5c", `"\"\\"`},
		{Text("\u6c34"), "\x63\xe6\xb0\xb4", "\"\u6c34\""},
		{Array{}, "\x80", "[]"},
		{Array{Int(1), Array{Int(2), Int(3)}, Array{Int(4), Int(5)}}, "\x83\x01\x82\x02\x03\x82\x04\x05", "[1, [2, 3], [4, 5]]"},
		{to25, "\x98\x19\x01\x02\x03\x04\x05\x06\x07\x08\x09\x0a\x0b\x0c\x0d\x0e\x0f\x10\x11\x12\x13\x14\x15\x16\x17\x18\x18\x18\x19",
			"[1, 2, 3, 4, 5, 6, 7, 8, 9, 10, 11, 12, 13, 14, 15, 16, 17, 18, 19, 20, 21, 22, 23, 24, 25]"},
		{Map{}, "\xa0", "{}"},
		{newMap(t, Pair{Int(3), Int(4)}, Pair{Int(1), Int(2)}), "\xa2\x01\x02\x03\x04", "{1: 2, 3: 4}"},
		{newMap(t, Pair{Text("b"), Array{Int(2), Int(3)}}, Pair{Text("a"), Int(1)}), "\xa2\x61a\x01\x61b\x82\x02\x03", `{"a": 1, "b": [2, 3]}`},
	} {
		encoded, err := Marshal(it.value, nil)
		if err != nil || string(encoded) != it.bytes {
			t.Errorf("%s: %x, %v", it.text, encoded, err)
			continue
		}
		value, err := Unmarshal(encoded, nil)
		if err != nil || !Equal(value, it.value) {
			t.Errorf("%s: %v, %v", it.text, value, err)
		}
		item, err := Open(encoded, nil)
		if err != nil || item.String() != it.text {
			t.Errorf("%s: %v, %v", it.text, item, err)
		}
		if value, err = item.Value(); err != nil || !Equal(value, it.value) {
			t.Errorf("%s: the item's value is %v, %v", it.text, value, err)
		}
	}
}

func TestMarshalRefuses(t *testing.T) {
	for name, it := range map[string]struct {
		value   Value
		options Options
		wanted  Reason
	}{
		"two levels of one": {Array{Array{}}, Options{Bytes: 9, Depth: 1}, TooDeep},
		"a tag in a tag":    {Tag{1, Tag{1, Int(0)}}, Options{Bytes: 9, Depth: 1}, TooDeep},
		"a map in a map":    {newMap(t, Pair{Map{}, Map{}}), Options{Bytes: 9, Depth: 1}, TooDeep},
		"no level":          {Array{Int(1)}, Options{Bytes: 9}, TooDeep},
		"three bytes of 2":  {Text("ab"), Options{Bytes: 2}, TooLong},
		"no UTF-8":          {Text("\xff"), Options{Bytes: 9}, InvalidText},
		"simple(24)":        {Simple(24), Options{Bytes: 9}, BadSimple},
		"simple(31)":        {Array{Simple(31)}, Options{Bytes: 9, Depth: 1}, BadSimple},
		"a key in bytes":    {newMap(t, Pair{Bytes("a"), Int(0)}), Options{Bytes: 9, Depth: 1, Keys: IntegersAndTexts}, KeyKind},
	} {
		options := it.options
		_, err := Marshal(it.value, &options)
		var refused *Refused
		if !errors.As(err, &refused) || refused.Reason != it.wanted {
			t.Errorf("%s: %v", name, err)
		}
	}
	for _, value := range []Value{nil, Array{nil}, Tag{1, nil}} {
		if _, err := Marshal(value, nil); err != ErrWrongKind {
			t.Errorf("%v: %v", value, err)
		}
	}
	deep := Value(Int(0))
	for i := 0; i < 100000; i++ {
		deep = Array{deep}
	}
	var refused *Refused
	if _, err := Marshal(deep, &widest); !errors.As(err, &refused) || refused.Reason != TooDeep || refused.Offset != MaxDepth {
		t.Errorf("100,000 levels: %v", err)
	}
	for _, options := range []Options{{Depth: MaxDepth + 1}, {Bytes: MaxBytes + 1}, {Order: 2}, {Keys: 2}} {
		options := options
		if _, err := Marshal(Int(0), &options); err != ErrOptions {
			t.Errorf("%+v: %v", options, err)
		}
	}
}

func TestMaps(t *testing.T) {
	keys := []Value{Int(0), Int(-1), Int(500), Bytes("a"), Text("a"), Text("aa"), Array{Int(1)}, newMap(t, Pair{Map{}, Int(1)}), Tag{5, Null}, True}
	var pairs []Pair
	for i, key := range keys {
		pairs = append(pairs, Pair{key, Int(int64(i))})
	}
	made := newMap(t, pairs...)
	for i, key := range keys {
		if value, ok := made.Get(key); !ok || value != Int(int64(i)) {
			t.Errorf("at %v: %v, %v", key, value, ok)
		}
		var repeated *RepeatedKeyError
		if _, err := NewMap(append(pairs, Pair{key, Null})...); !errors.As(err, &repeated) || !Equal(repeated.Key, key) {
			t.Errorf("%v twice: %v", key, err)
		}
	}
	for _, key := range []Value{Int(1), Text("A"), Array{}, False, nil, Text("\xff")} {
		if value, ok := made.Get(key); ok {
			t.Errorf("at %v: %v", key, value)
		}
	}
	if _, err := NewMap(Pair{Text("\xff"), Null}); err == nil {
		t.Error("a key that is no UTF-8")
	}
	if made.Len() != len(keys) || len(made.Pairs()) != len(keys) || !Equal(made.At(0).Key, Int(0)) || !Equal(made.Pairs()[9].Key, True) {
		t.Errorf("pairs: %v", made.Pairs())
	}
	var none Map
	if _, ok := none.Get(Int(0)); ok || none.Len() != 0 {
		t.Error("the zero map has a pair")
	}
}

func TestEqual(t *testing.T) {
	values := []Value{
		nil, Int(0), Int(-1), Unsigned(1), Bytes(""), Bytes("a"), Text(""), Text("a"), Array{}, Array{Int(0)}, Array{Array{}}, Map{},
		newMap(t, Pair{Int(0), Int(0)}), newMap(t, Pair{Int(0), Int(1)}), newMap(t, Pair{Int(1), Int(0)}), newMap(t, Pair{Bytes("a"), Bytes("b")}),
		Tag{1, Int(0)}, Tag{2, Int(0)}, Tag{1, Bytes("a")}, Simple(0), True,
	}
	for i, one := range values {
		for k, other := range values {
			if Equal(one, other) != (i == k) {
				t.Errorf("%v and %v", one, other)
			}
		}
	}
}

// A stranger's keys within keys cost no more than other items: 64 levels of maps as keys around a text of 1,000,000 bytes.
func TestKeysWithinKeys(t *testing.T) {
	text := append([]byte{0x7a, 0, 0x0f, 0x42, 0x40}, bytes.Repeat([]byte{'a'}, 1000000)...)
	input := append(bytes.Repeat([]byte{0xa1}, 64), text...)
	input = append(input, make([]byte, 64)...)
	options := Options{Bytes: 1 << 21, Depth: 64}
	taken := testing.AllocsPerRun(1, func() {
		value, err := Unmarshal(input, &options)
		if err != nil {
			t.Fatal(err)
		}
		again, err := Unmarshal(input, &options)
		if err != nil || !Equal(value, again) {
			t.Fatal("not equal", err)
		}
	})
	if taken > 2000 {
		t.Errorf("%v allocations", taken)
	}
	result := testing.Benchmark(func(b *testing.B) {
		b.ReportAllocs()
		for i := 0; i < b.N; i++ {
			if _, err := Unmarshal(input, &options); err != nil {
				b.Fatal(err)
			}
		}
	})
	if bytes := result.AllocedBytesPerOp(); bytes > 64<<20 {
		t.Errorf("%d bytes are taken for %d", bytes, len(input))
	}
}

func TestIntegers(t *testing.T) {
	for _, n := range []int64{0, 1, -1, 23, -24, math.MaxInt64, math.MinInt64} {
		if found, err := AsInt64(Int(n)); err != nil || found != n {
			t.Errorf("%d: %d, %v", n, found, err)
		}
	}
	for value, wanted := range map[Value]error{Unsigned(1 << 63): ErrOutOfRange, Negative(1 << 63): ErrOutOfRange, Text("0"): ErrWrongKind} {
		if _, err := AsInt64(value); err != wanted {
			t.Errorf("%v: %v", value, err)
		}
	}
	if fmt.Sprint(Negative(0), Negative(41), Negative(math.MaxUint64)) != "-1 -42 -18446744073709551616" {
		t.Error("the digits of negative integers")
	}
}
