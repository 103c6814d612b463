package naltvigo

import (
	"fmt"
	"sort"
)

// Pair is a key of a map and its value.
type Pair struct{ Key, Value Value }

// Map is a map, which does not change. No two of its keys are equal, and its pairs are in the bytewise order of their keys.
// The zero Map has no pairs. Do not change the bytes of a key.
type Map struct{ pairs []encodedPair }

// The canonical bytes of a key are a slice of the string of all bytes from which it was decoded. So keys within keys need no
// further memory.
type encodedPair struct {
	encoded string
	Pair
}

// RepeatedKeyError is the error of NewMap if two keys are equal.
type RepeatedKeyError struct{ Key Value }

func (err *RepeatedKeyError) Error() string {
	return fmt.Sprintf("naltvigo: two keys of a map are equal: %v", err.Key)
}

// NewMap returns the map of these pairs, in any order. It fails with a *RepeatedKeyError if two keys are equal. If a key has no
// encoding, it fails as Marshal does.
func NewMap(pairs ...Pair) (Map, error) {
	made := make([]encodedPair, len(pairs))
	for i, pair := range pairs {
		encoded, err := Marshal(pair.Key, &widest)
		if err != nil {
			return Map{}, err
		}
		made[i] = encodedPair{string(encoded), pair}
	}
	sort.Slice(made, func(i, j int) bool { return made[i].encoded < made[j].encoded })
	for i := 1; i < len(made); i++ {
		if made[i-1].encoded == made[i].encoded {
			return Map{}, &RepeatedKeyError{made[i].Key}
		}
	}
	return Map{made}, nil
}

// The widest limits.
var widest = Options{Bytes: MaxBytes, Depth: MaxDepth, Order: Bytewise, Keys: AnyKeys}

// Len returns the number of pairs.
func (m Map) Len() int { return len(m.pairs) }

// At returns the pair at an index, in the order of the keys.
func (m Map) At(index int) Pair { return m.pairs[index].Pair }

// Pairs returns a new slice of the pairs, in the order of their keys.
func (m Map) Pairs() []Pair {
	pairs := make([]Pair, len(m.pairs))
	for i, pair := range m.pairs {
		pairs[i] = pair.Pair
	}
	return pairs
}

// Get returns the value at a key, by binary search.
func (m Map) Get(key Value) (Value, bool) {
	bytes, err := Marshal(key, &widest)
	if err != nil {
		return nil, false
	}
	encoded := string(bytes)
	at := sort.Search(len(m.pairs), func(i int) bool { return m.pairs[i].encoded >= encoded })
	if at == len(m.pairs) || m.pairs[at].encoded != encoded {
		return nil, false
	}
	return m.pairs[at].Value, true
}
