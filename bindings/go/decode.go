package naltvigo

// #include "naltvigo.h"
import "C"

// part is a value, and its canonical bytes.
type part struct {
	value      Value
	start, end C.uint64_t
}

// decoded returns the value of canonical bytes in bytewise order. Its byte strings are slices of these bytes. Its texts and the
// canonical bytes of its keys are slices of one string.
func decoded(canonical []byte) (Value, error) {
	items, err := indexed(canonical)
	if err != nil {
		return nil, err
	}
	text := string(canonical)
	// Items are in the order of their first bytes. So in reverse order, the members of an item are the last parts that were made.
	var parts []part
	for i := len(items) - 1; i >= 0; i-- {
		item := &items[i]
		members := memberCount(item)
		from := len(parts) - members
		made := part{made(item, parts[from:], canonical, text), item.offset, item.end}
		parts = append(parts[:from], made)
	}
	return parts[0].value, nil
}

// memberCount is how many items an item holds directly.
func memberCount(item *C.struct_naltvigo_item) int {
	switch item.kind {
	case KindArray:
		return int(item.number)
	case KindMap:
		return 2 * int(item.number)
	case KindTag:
		return 1
	}
	return 0
}

// made is the value of an item. Its members are given in reverse order.
func made(item *C.struct_naltvigo_item, members []part, canonical []byte, text string) Value {
	last := len(members) - 1
	switch item.kind {
	case KindUnsigned:
		return Unsigned(item.number)
	case KindNegative:
		return Negative(item.number)
	case KindBytes:
		return Bytes(canonical[item.content:item.end:item.end])
	case KindText:
		return Text(text[item.content:item.end])
	case KindArray:
		array := make(Array, len(members))
		for i := range array {
			array[i] = members[last-i].value
		}
		return array
	case KindMap:
		pairs := make([]encodedPair, len(members)/2)
		for i := range pairs {
			key, value := members[last-2*i], members[last-2*i-1]
			pairs[i] = encodedPair{text[key.start:key.end], Pair{key.value, value.value}}
		}
		return Map{pairs}
	case KindTag:
		return Tag{uint64(item.number), members[0].value}
	}
	return Simple(item.number)
}

// indexed is the table of all items of canonical bytes in bytewise order.
func indexed(canonical []byte) ([]C.struct_naltvigo_item, error) {
	with := widest.c()
	// A guess, and at most 1,024 entries: a long text is one item, and a table for its length would cost more than the text.
	guess := len(canonical)/4 + 16
	if guess > 1024 {
		guess = 1024
	}
	items := make([]C.struct_naltvigo_item, guess)
	for {
		var needed C.size_t
		var why C.struct_naltvigo_refusal
		status := C.naltvigo_index(first(canonical), C.size_t(len(canonical)), &with, &items[0], C.size_t(len(items)), &needed, &why)
		if status == C.NALTVIGO_TOO_SMALL && needed > C.size_t(len(items)) {
			items = make([]C.struct_naltvigo_item, needed)
			continue
		}
		return items[:needed], outcome(status, &why, canonical, widest)
	}
}
