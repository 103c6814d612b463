package naltvigo

import (
	"bytes"
	"encoding/binary"
)

// encoder writes an encoding of a value. Canonicalise, which is proved, makes the canonical bytes from it.
type encoder struct {
	out  []byte
	stop bool // after the head that nests too deep, which Canonicalise refuses
	err  error
}

// appended appends an encoding of a value, up to the first head that nests deeper than depth.
func appended(out []byte, value Value, depth uint32) ([]byte, error) {
	if depth > MaxDepth {
		return nil, ErrOptions
	}
	made := encoder{out: out}
	made.value(value, int(depth))
	return made.out, made.err
}

func (made *encoder) value(value Value, depth int) {
	switch it := value.(type) {
	case Unsigned:
		made.head(KindUnsigned, uint64(it))
	case Negative:
		made.head(KindNegative, uint64(it))
	case Bytes:
		made.head(KindBytes, uint64(len(it)))
		made.out = append(made.out, it...)
	case Text:
		made.head(KindText, uint64(len(it)))
		made.out = append(made.out, it...)
	case Array:
		made.head(KindArray, uint64(len(it)))
		for i := 0; i < len(it) && made.goesOn(depth); i++ {
			made.value(it[i], depth-1)
		}
		made.stop = made.stop || depth == 0
	case Map:
		made.head(KindMap, uint64(it.Len()))
		for i := 0; i < it.Len() && made.goesOn(depth); i++ {
			made.value(it.pairs[i].Key, depth-1)
			made.value(it.pairs[i].Value, depth-1)
		}
		made.stop = made.stop || depth == 0
	case Tag:
		made.head(KindTag, it.Number)
		if made.goesOn(depth) {
			made.value(it.Content, depth-1)
		}
	case Simple:
		if it < 24 {
			made.out = append(made.out, KindSimple<<5|byte(it))
		} else {
			made.out = append(made.out, KindSimple<<5|24, byte(it))
		}
	default:
		made.err = ErrWrongKind
	}
}

// goesOn reports whether members follow the head that was written, and stops at one that nests too deep.
func (made *encoder) goesOn(depth int) bool {
	made.stop = made.stop || depth == 0
	return !made.stop && made.err == nil
}

// head appends the shortest head of a kind and a number.
func (made *encoder) head(kind byte, number uint64) {
	initial := kind << 5
	switch {
	case number < 24:
		made.out = append(made.out, initial|byte(number))
	case number < 1<<8:
		made.out = append(made.out, initial|24, byte(number))
	case number < 1<<16:
		made.out = binary.BigEndian.AppendUint16(append(made.out, initial|25), uint16(number))
	case number < 1<<32:
		made.out = binary.BigEndian.AppendUint32(append(made.out, initial|26), uint32(number))
	default:
		made.out = binary.BigEndian.AppendUint64(append(made.out, initial|27), number)
	}
}

// Equal reports whether two values are equal. They are if and only if their canonical bytes are equal.
func Equal(left, right Value) bool {
	todo := [][2]Value{{left, right}}
	for len(todo) > 0 {
		one, other := todo[len(todo)-1][0], todo[len(todo)-1][1]
		todo = todo[:len(todo)-1]
		switch it := one.(type) {
		case Bytes:
			if other, ok := other.(Bytes); !ok || !bytes.Equal(it, other) {
				return false
			}
		case Array:
			other, ok := other.(Array)
			if !ok || len(it) != len(other) {
				return false
			}
			for i := range it {
				todo = append(todo, [2]Value{it[i], other[i]})
			}
		case Map:
			other, ok := other.(Map)
			if !ok || it.Len() != other.Len() {
				return false
			}
			for i, pair := range it.pairs {
				if pair.encoded != other.pairs[i].encoded {
					return false
				}
				todo = append(todo, [2]Value{pair.Value, other.pairs[i].Value})
			}
		case Tag:
			other, ok := other.(Tag)
			if !ok || it.Number != other.Number {
				return false
			}
			todo = append(todo, [2]Value{it.Content, other.Content})
		default:
			if one != other {
				return false
			}
		}
	}
	return true
}
