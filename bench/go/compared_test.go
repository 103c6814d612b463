// Compares the times of the package for Go, of fxamacker/cbor and of encoding/json on the same values: bench/go.sh runs it.
package compared

import (
	"bytes"
	"encoding/hex"
	"encoding/json"
	"fmt"
	"syscall"
	"testing"

	"github.com/fxamacker/cbor/v2"
	"naltvigo"
)

// inputs are canonical items: the claims of a token (RFC 8392), 1,000 records, and a text past ASCII of 64 KiB.
func inputs(b *testing.B) map[string][]byte {
	record := func(i int64) naltvigo.Value {
		made, err := naltvigo.NewMap(
			naltvigo.Pair{Key: naltvigo.Text("id"), Value: naltvigo.Int(i)},
			naltvigo.Pair{Key: naltvigo.Text("name"), Value: naltvigo.Text(fmt.Sprint("sensor ", i))},
			naltvigo.Pair{Key: naltvigo.Text("on"), Value: naltvigo.Bool(i%2 == 0)},
			naltvigo.Pair{Key: naltvigo.Text("readings"), Value: naltvigo.Array{naltvigo.Int(-i), naltvigo.Int(i * i), naltvigo.Int(7)}},
		)
		if err != nil {
			b.Fatal(err)
		}
		return made
	}
	records := make(naltvigo.Array, 1000)
	for i := range records {
		records[i] = record(int64(i))
	}
	encoded, err := naltvigo.Marshal(records, nil)
	if err != nil {
		b.Fatal(err)
	}
	text, err := naltvigo.Marshal(naltvigo.Text(bytes.Repeat([]byte("größe"), 9362)), nil)
	if err != nil {
		b.Fatal(err)
	}
	return map[string][]byte{
		"claims": []byte("\xa7\x01\x75coap://as.example.com\x02\x66erikwm\x03\x73coaps://example.com" +
			"\x04\x1a\x56\x12\xae\xb0\x05\x1a\x56\x10\xd9\xf0\x06\x1a\x56\x10\xd9\xf0\x07\x42\x0b\x71"),
		"records": encoded,
		"text":    text,
	}
}

// processorTime is what the process has used until now, in nanoseconds, with what the garbage collector used.
func processorTime(b *testing.B) int64 {
	var used syscall.Rusage
	if err := syscall.Getrusage(syscall.RUSAGE_SELF, &used); err != nil {
		b.Fatal(err)
	}
	return used.Utime.Nano() + used.Stime.Nano()
}

// each runs a function on each input, and reports its processor time.
func each(b *testing.B, call func(b *testing.B, input []byte) error) {
	for _, name := range []string{"claims", "records", "text"} {
		input := inputs(b)[name]
		b.Run(name, func(b *testing.B) {
			began := processorTime(b)
			for i := 0; i < b.N; i++ {
				if err := call(b, input); err != nil {
					b.Fatal(err)
				}
			}
			took := float64(processorTime(b)-began) / float64(b.N)
			b.ReportMetric(took, "used-ns/op")
			b.ReportMetric(float64(len(input)), "bytes")
		})
	}
}

func BenchmarkCheckValid(b *testing.B) {
	each(b, func(b *testing.B, input []byte) error { return naltvigo.CheckValid(input, nil) })
}

// Well-formed alone: neither equal keys nor the UTF-8 of texts.
func BenchmarkFxamackerWellformed(b *testing.B) {
	each(b, func(b *testing.B, input []byte) error { return cbor.Valid(input) })
}

// Any encoding to canonical bytes, without values.
func BenchmarkCanonicalise(b *testing.B) {
	each(b, func(b *testing.B, input []byte) error {
		_, err := naltvigo.Canonicalise(input, nil)
		return err
	})
}

func BenchmarkValues(b *testing.B) {
	each(b, func(b *testing.B, input []byte) error {
		value, err := naltvigo.Unmarshal(input, nil)
		if err != nil {
			return err
		}
		again, err := naltvigo.Marshal(value, nil)
		if err == nil && !bytes.Equal(again, input) {
			return fmt.Errorf("other bytes")
		}
		return err
	})
}

// Equal keys are refused, and maps are sorted, as with naltvigo.
func BenchmarkFxamackerValues(b *testing.B) {
	decode, err := cbor.DecOptions{DupMapKey: cbor.DupMapKeyEnforcedAPF}.DecMode()
	if err != nil {
		b.Fatal(err)
	}
	encode, err := cbor.CoreDetEncOptions().EncMode()
	if err != nil {
		b.Fatal(err)
	}
	each(b, func(b *testing.B, input []byte) error {
		var value interface{}
		if err := decode.Unmarshal(input, &value); err != nil {
			return err
		}
		again, err := encode.Marshal(value)
		if err == nil && !bytes.Equal(again, input) {
			return fmt.Errorf("other bytes")
		}
		return err
	})
}

// asJSON is the value as encoding/json takes it: a byte string is hex digits there, and keys are texts.
func asJSON(value naltvigo.Value) interface{} {
	switch it := value.(type) {
	case naltvigo.Bytes:
		return hex.EncodeToString(it)
	case naltvigo.Text:
		return string(it)
	case naltvigo.Simple:
		return it == naltvigo.True
	case naltvigo.Array:
		made := make([]interface{}, len(it))
		for i, one := range it {
			made[i] = asJSON(one)
		}
		return made
	case naltvigo.Map:
		made := map[string]interface{}{}
		for _, pair := range it.Pairs() {
			made[fmt.Sprint(asJSON(pair.Key))] = asJSON(pair.Value)
		}
		return made
	}
	n, _ := naltvigo.AsInt64(value)
	return n
}

// The same values as JSON.
func BenchmarkJSONValues(b *testing.B) {
	texts := map[string][]byte{}
	for name, input := range inputs(b) {
		value, err := naltvigo.Unmarshal(input, nil)
		if err != nil {
			b.Fatal(err)
		}
		if texts[string(input)], err = json.Marshal(asJSON(value)); err != nil {
			b.Fatal(name, err)
		}
	}
	each(b, func(b *testing.B, input []byte) error {
		var value interface{}
		if err := json.Unmarshal(texts[string(input)], &value); err != nil {
			return err
		}
		_, err := json.Marshal(value)
		return err
	})
}
