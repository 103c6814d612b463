package naltvigo_test

import (
	"errors"
	"fmt"
	"io"
	"log"
	"strings"

	"naltvigo"
)

func ExampleCanonicalise() {
	// {_ "Fun": true, "Amt": -2}, of indefinite length
	canonical, err := naltvigo.Canonicalise([]byte("\xbf\x63Fun\xf5\x63Amt\x21\xff"), nil)
	if err != nil {
		log.Fatal(err)
	}
	fmt.Printf("%x\n", canonical)
	// Output: a263416d74216346756ef5
}

func ExampleRefused() {
	// [1.5]
	_, err := naltvigo.Canonicalise([]byte("\x81\xf9\x3e\x00"), nil)
	var refused *naltvigo.Refused
	if errors.As(err, &refused) {
		fmt.Println(refused.Reason, "at", refused.Offset)
		fmt.Println(refused.Advice)
	}
	fmt.Println(err)
	// Output:
	// Float at 1
	// Encode it as an integer, as a text, or as a tag that contains integers.
	// naltvigo: refused 5 Float at 1 ($[0]): A floating-point number begins here; floats are not accepted.
}

func ExampleDiagnostic() {
	text, err := naltvigo.Diagnostic([]byte("\xbf\x63Fun\xf5\x63Amt\x21\xff"), nil)
	fmt.Println(text, err)
	// Output: {"Fun": true, "Amt": -2} <nil>
}

func ExampleMarshal() {
	claims, err := naltvigo.NewMap(
		naltvigo.Pair{Key: naltvigo.Int(4), Value: naltvigo.Int(1444064944)},
		naltvigo.Pair{Key: naltvigo.Int(1), Value: naltvigo.Text("coap://as.example.com")},
	)
	if err != nil {
		log.Fatal(err)
	}
	bytes, err := naltvigo.Marshal(claims, nil)
	if err != nil {
		log.Fatal(err)
	}
	item, err := naltvigo.Open(bytes, nil)
	if err != nil {
		log.Fatal(err)
	}
	expires, err := item.GetInt64(naltvigo.Int(4))
	fmt.Println(expires, err)
	fmt.Println(item)
	// Output:
	// 1444064944 <nil>
	// {1: "coap://as.example.com", 4: 1444064944}
}

// A type that is encoded and read by its own functions.
type Reading struct {
	Sensor string
	Values []int64
}

func (reading Reading) Encode() ([]byte, error) {
	values := make(naltvigo.Array, len(reading.Values))
	for i, value := range reading.Values {
		values[i] = naltvigo.Int(value)
	}
	pairs, err := naltvigo.NewMap(
		naltvigo.Pair{Key: naltvigo.Text("sensor"), Value: naltvigo.Text(reading.Sensor)},
		naltvigo.Pair{Key: naltvigo.Text("values"), Value: values},
	)
	if err != nil {
		return nil, err
	}
	return naltvigo.Marshal(pairs, nil)
}

func DecodeReading(canonical []byte) (reading Reading, err error) {
	item, err := naltvigo.Open(canonical, nil) // fails if the bytes are not canonical
	if err != nil {
		return reading, err
	}
	if reading.Sensor, err = item.GetText(naltvigo.Text("sensor")); err != nil {
		return reading, err
	}
	values, err := item.Get(naltvigo.Text("values"))
	if err != nil {
		return reading, err
	}
	for members := values.Members(); members.Next(); {
		value, err := members.Item().Int64()
		if err != nil {
			return reading, err
		}
		reading.Values = append(reading.Values, value)
	}
	return reading, nil
}

func Example() {
	canonical, err := Reading{"roof", []int64{21, -3}}.Encode()
	if err != nil {
		log.Fatal(err)
	}
	fmt.Println(DecodeReading(canonical))
	_, err = DecodeReading([]byte("\xa1\x66sensor\x01")) // {"sensor": 1}
	fmt.Println(err)
	// Output:
	// {roof [21 -3]} <nil>
	// naltvigo: at key "sensor": an item of another kind
}

func ExampleReader() {
	reader := naltvigo.NewReader(strings.NewReader("\x18\x00\x63abc"), nil)
	for {
		item, err := reader.Next()
		if err == io.EOF {
			break
		}
		if err != nil {
			log.Fatal(err)
		}
		fmt.Printf("%x\n", item)
	}
	// Output:
	// 1800
	// 63616263
}

func ExampleChecker() {
	checker, err := naltvigo.NewChecker(nil)
	if err != nil {
		log.Fatal(err)
	}
	defer checker.Close()
	// {"b": 2, "a": .., in two parts: the item is refused before it ends
	for _, part := range []string{"\xa2\x61b\x02", "\x61a"} {
		if _, err := io.WriteString(checker, part); err != nil {
			fmt.Println(err)
		}
	}
	// Output:
	// naltvigo: refused 16 KeyOrder at 4: This key does not sort after the key before it.
}

func ExampleCheckReader() {
	var stored strings.Builder
	// {"a": 1}
	received := io.TeeReader(strings.NewReader("\xa1\x61a\x01"), &stored)
	size, err := naltvigo.CheckReader(received, nil)
	fmt.Printf("%d %v %x\n", size, err, stored.String())
	// Output:
	// 4 <nil> a1616101
}
