package pendratsoa

import (
	"bytes"
	"fmt"
	"strings"
	"testing"
)

func TestPayloads(t *testing.T) {
	first, second := unhex(t, "0801"), unhex(t, "0a020203")
	canonical := must(Canonical(SchemaSuspensionMessageV6, append(first, second...)))(t)
	if !bytes.Equal(canonical, unhex(t, "0a03010203")) {
		t.Errorf("the canonical payload is %x", canonical)
	}
	if merged := must(Merge(SchemaSuspensionMessageV6, first, second))(t); !bytes.Equal(merged, canonical) {
		t.Errorf("merged they are %x", merged)
	}
	if json := must(ToJSON(SchemaErrorMessage, unhex(t, "0801120178")))(t); string(json) != `{"code":1,"message":"x"}` {
		t.Errorf("the JSON is %s", json)
	}
	if !must(IsWellFormed(SchemaSuspensionMessageV6, first))(t) {
		t.Errorf("%x is well-formed", first)
	}
	if must(IsWellFormed(SchemaSuspensionMessageV6, first[:len(first)-1]))(t) {
		t.Errorf("%x without its last byte is malformed", first)
	}
}

func TestNoBytes(t *testing.T) {
	for schema := 0; schema < Schemas; schema++ {
		for _, nothing := range [][]byte{nil, {}} {
			canonical := must(Canonical(schema, nothing))(t)
			merged := must(Merge(schema, nothing, nothing))(t)
			json := must(ToJSON(schema, nothing))(t)
			if len(canonical) != 0 || len(merged) != 0 || string(json) != "{}" || !must(IsWellFormed(schema, nothing))(t) {
				t.Errorf("schema %d: %x, %x, %s", schema, canonical, merged, json)
			}
		}
	}
}

func TestMoreThanTheFirstRoom(t *testing.T) {
	// each byte is six in JSON, and the number is a group of seven bits longer when it is in a list
	payload := append(unhex(t, "12e807"), strings.Repeat("\x01", 1000)...)
	want := `{"message":"` + strings.Repeat(`\u0001`, 1000) + `"}`
	if json := must(ToJSON(SchemaErrorMessage, payload))(t); string(json) != want {
		t.Errorf("the JSON is %s", json)
	}
	if found := must(Canonical(SchemaErrorMessage, payload))(t); !bytes.Equal(found, payload) {
		t.Errorf("the canonical payload is %x", found)
	}
}

func TestResultIsOfExactlyItsBytes(t *testing.T) {
	json := must(ToJSON(SchemaErrorMessage, unhex(t, "120178")))(t)
	if len(json) != cap(json) {
		t.Errorf("%d bytes have room for %d", len(json), cap(json))
	}
}

func TestMalformedPayloads(t *testing.T) {
	good, bad := unhex(t, "120178"), unhex(t, "12")
	const malformed = " is malformed"
	_, err := Canonical(SchemaErrorMessage, bad)
	wantError(t, err, ErrMalformed, "pendratsoa: Canonical: payload of 1 byte"+malformed)
	_, err = ToJSON(SchemaErrorMessage, append(good, bad...))
	wantError(t, err, ErrMalformed, fmt.Sprintf("pendratsoa: ToJSON: payload of %d bytes", len(good)+1)+malformed)
	_, err = Merge(SchemaErrorMessage, bad, good)
	wantError(t, err, ErrMalformed, "pendratsoa: Merge: first payload of 1 byte"+malformed)
	_, err = Merge(SchemaErrorMessage, good, bad)
	wantError(t, err, ErrMalformed, "pendratsoa: Merge: second payload of 1 byte"+malformed)
}
