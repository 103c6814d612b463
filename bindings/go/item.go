package naltvigo

// #include "naltvigo.h"
import "C"

// Item is an item in its canonical bytes, which it does not copy. Do not change them while it is used.
type Item struct {
	bytes   []byte
	order   Order
	kind    int
	number  uint64
	content int
}

// Open returns the item of an input that is one item in its canonical bytes. Otherwise it fails as CheckCanonical does.
func Open(input []byte, options *Options) (Item, error) {
	if err := CheckCanonical(input, options); err != nil {
		return Item{}, err
	}
	return itemAt(input, 0, given(options).Order)
}

func itemAt(input []byte, offset int, order Order) (Item, error) {
	var item C.struct_naltvigo_item
	status := C.naltvigo_item_at(first(input), C.size_t(len(input)), C.uint64_t(offset), &item)
	return itemOf(input, &item, order), failure(status)
}

func itemOf(input []byte, item *C.struct_naltvigo_item, order Order) Item {
	return Item{
		bytes:   input[item.offset:item.end:item.end],
		order:   order,
		kind:    int(item.kind),
		number:  uint64(item.number),
		content: int(item.content - item.offset),
	}
}

// Encoded returns the canonical bytes of the item: to hash, to sign, to compare. They are not copied.
func (item Item) Encoded() []byte { return item.bytes }

// Kind returns one of the constants from KindUnsigned to KindSimple.
func (item Item) Kind() int { return item.kind }

// Len returns the number of members of an array, of pairs of a map, or of bytes of a string; else 0.
func (item Item) Len() int {
	switch item.kind {
	case KindBytes, KindText, KindArray, KindMap:
		return int(item.number)
	}
	return 0
}

// Int64 returns the integer that the item is.
func (item Item) Int64() (int64, error) { return toInt64(item.kind, item.number) }

// Uint64 returns the integer that the item is, if it is 0 or greater.
func (item Item) Uint64() (uint64, error) {
	switch item.kind {
	case KindUnsigned:
		return item.number, nil
	case KindNegative:
		return 0, ErrOutOfRange
	}
	return 0, ErrWrongKind
}

// Bool returns whether the item is true; ErrWrongKind if it is neither true nor false.
func (item Item) Bool() (bool, error) {
	if item.kind != KindSimple || (item.number != uint64(True) && item.number != uint64(False)) {
		return false, ErrWrongKind
	}
	return item.number == uint64(True), nil
}

// Text returns the text that the item is.
func (item Item) Text() (string, error) {
	if item.kind != KindText {
		return "", ErrWrongKind
	}
	return string(item.bytes[item.content:]), nil
}

// Bytes returns the byte string that the item is. It is not copied.
func (item Item) Bytes() ([]byte, error) {
	if item.kind != KindBytes {
		return nil, ErrWrongKind
	}
	return item.bytes[item.content:], nil
}

// Tag returns the number of the tag that the item is, and its content.
func (item Item) Tag() (uint64, Item, error) {
	if item.kind != KindTag {
		return 0, Item{}, ErrWrongKind
	}
	content, err := itemAt(item.bytes, item.content, item.order)
	return item.number, content, err
}

// Get returns the value of a key in the map that the item is, or ErrNotFound. It reads the pairs before this key.
func (item Item) Get(key Value) (Item, error) {
	with := widest
	with.Order = item.order
	encoded, err := Marshal(key, &with)
	if err != nil {
		return Item{}, err
	}
	var found C.struct_naltvigo_item
	status := C.naltvigo_find(first(item.bytes), C.size_t(len(item.bytes)), 0, first(encoded), C.size_t(len(encoded)), &found)
	return itemOf(item.bytes, &found, item.order), failure(status)
}

// GetInt64 returns the integer at a key. It fails, as the four calls after it do, with a *FieldError.
func (item Item) GetInt64(key Value) (int64, error) { return field(item, key, Item.Int64) }

// GetUint64 returns the integer at a key, if it is 0 or greater.
func (item Item) GetUint64(key Value) (uint64, error) { return field(item, key, Item.Uint64) }

// GetBool returns the boolean at a key.
func (item Item) GetBool(key Value) (bool, error) { return field(item, key, Item.Bool) }

// GetText returns the text at a key.
func (item Item) GetText(key Value) (string, error) { return field(item, key, Item.Text) }

// GetBytes returns the byte string at a key. It is not copied.
func (item Item) GetBytes(key Value) ([]byte, error) { return field(item, key, Item.Bytes) }

func field[T any](item Item, key Value, as func(Item) (T, error)) (T, error) {
	var value T
	found, err := item.Get(key)
	if err == nil {
		value, err = as(found)
	}
	if err != nil {
		err = &FieldError{key, err}
	}
	return value, err
}

// At returns the member of an array at an index, or ErrNotFound. It reads the members before this member.
func (item Item) At(index int) (Item, error) {
	if item.kind != KindArray {
		return Item{}, ErrWrongKind
	}
	members := item.Members()
	for members.Next() {
		if index == 0 {
			return members.Item(), nil
		}
		index--
	}
	return Item{}, ErrNotFound
}

// Members is an iterator over the items in an array, a map or a tag.
type Members struct {
	rest  []byte
	left  uint64
	order Order
	item  Item
}

// Members returns the members of an array, or the keys of a map, each followed by its value, or the content of a tag:
//
//	for members := item.Members(); members.Next(); {
//		use(members.Item())
//	}
func (item Item) Members() *Members {
	members := Members{rest: item.bytes[item.content:], order: item.order}
	switch item.kind {
	case KindArray:
		members.left = item.number
	case KindMap:
		members.left = 2 * item.number
	case KindTag:
		members.left = 1
	}
	return &members
}

// Next goes to the next item, and reports whether there is one.
func (members *Members) Next() bool {
	if members.left == 0 {
		return false
	}
	item, err := itemAt(members.rest, 0, members.order)
	if err != nil {
		members.left = 0 // the bytes were changed
		return false
	}
	members.left--
	members.rest = members.rest[len(item.bytes):]
	members.item = item
	return true
}

// Item returns the item that Next went to.
func (members *Members) Item() Item { return members.item }

// Value returns the value that the item encodes.
func (item Item) Value() (Value, error) { return Unmarshal(item.bytes, &widest) }

// String returns the diagnostic text.
func (item Item) String() string {
	text, err := Diagnostic(item.bytes, &widest)
	if err != nil {
		return err.Error()
	}
	return text
}
