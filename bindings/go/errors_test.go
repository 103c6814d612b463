package naltvigo

import (
	"errors"
	"strings"
	"testing"
)

// The texts of refusals, as naltvigo.h has them of naltvigo_explain.
func TestExplanations(t *testing.T) {
	for _, it := range []struct {
		input                string
		call                 func([]byte, *Options) error
		sentence, path, said string
	}{
		{"\xa1\x61a\x82\x00\xf9\x00\x00", CheckValid, "A floating-point number begins here; floats are not accepted.", `$."a"[1]`,
			`naltvigo: refused 5 Float at 5 ($."a"[1]): A floating-point number begins here; floats are not accepted.`},
		{"\x82\x00\xa2\x01\x00\x01\x00", CheckValid, "This key equals an earlier key of its map.", "$[1], key 2 of the map at 2",
			"naltvigo: refused 11 RepeatedKey at 5 ($[1], key 2 of the map at 2): This key equals an earlier key of its map."},
		{"\x81\x19\x00\x18", CheckCanonical, "A number or a length is encoded in more bytes than necessary.", "$[0]",
			"naltvigo: refused 14 NotShortest at 1 ($[0]): A number or a length is encoded in more bytes than necessary."},
		{"\x00\x00", CheckValid, "The item is complete, and a byte follows it.", "$",
			"naltvigo: refused 12 Trailing at 1: The item is complete, and a byte follows it."},
		{"", CheckValid, "The input ends within the item.", "$", "naltvigo: refused 1 Truncated at 0: The input ends within the item."},
	} {
		err := it.call([]byte(it.input), nil)
		var refused *Refused
		if !errors.As(err, &refused) || refused.Sentence != it.sentence || refused.Path != it.path || refused.Advice == "" || err.Error() != it.said {
			t.Errorf("%x: %v, %+v", it.input, err, refused)
		}
	}
}

// A path of more bytes than the first buffer has: 256 tags, as $(1)(1)..
func TestLongPath(t *testing.T) {
	input := make([]byte, 0, 257)
	path := "$"
	for i := 0; i < 256; i++ {
		input = append(input, 0xc1)
		path += "(1)"
	}
	_, err := Canonicalise(append(input, 0xff), &Options{Bytes: 1 << 20, Depth: 256})
	var refused *Refused
	if !errors.As(err, &refused) || refused.Reason != StrayBreak || refused.Path != path {
		t.Errorf("%v", err)
	}
}

// Paths of each length, so that an explanation fills 512 bytes, or one more or less.
func TestPathOfEachLength(t *testing.T) {
	for length := 0; length < 600; length++ {
		input, path := "", "$"
		for i := 0; i <= length/43; i++ {
			size := 40
			if i == length/43 {
				size = 1 + length%43
			}
			name := strings.Repeat("k", size)
			input += "\xa1\x78" + string([]byte{byte(size)}) + name
			path += ".\"" + name + "\""
		}
		var refused *Refused
		_, err := Canonicalise([]byte(input+"\xf9\x00\x00"), nil)
		if !errors.As(err, &refused) || refused.Path != path {
			t.Errorf("%d: %v", length, err)
		}
	}
}

// Which of the two inputs of Same an explanation is of.
func TestExplainedSide(t *testing.T) {
	for side, it := range [][2]string{{"\x81\xf9\x00\x00", "\x00"}, {"\x00", "\x81\xf9\x00\x00"}} {
		_, err := Same([]byte(it[0]), []byte(it[1]), nil)
		var refused *RefusedSide
		if !errors.As(err, &refused) || refused.Right != (side == 1) || refused.Cause.Path != "$[0]" {
			t.Errorf("%x: %v", it, err)
		}
	}
}
