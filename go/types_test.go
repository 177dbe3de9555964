package pendratsoa

import (
	"bytes"
	"errors"
	"fmt"
	"math"
	"regexp"
	"strconv"
	"strings"
	"testing"
)

func TestLibraryVersion(t *testing.T) {
	version := must(LibraryVersion())(t)
	if !bytes.Contains(readFile(t, "include/pendratsoa.h"), []byte(`LIBRARY_VERSION "`+version+`"`)) {
		t.Errorf("the version is %s", version)
	}
}

func TestTypesHaveTheirCodes(t *testing.T) {
	found := 0
	for _, line := range strings.Split(string(readFile(t, "proto/types.txt")), "\n") {
		digits, name, isType := strings.Cut(line, " ")
		if !isType || digits == "#" {
			continue
		}
		code := uint16(must(strconv.ParseUint(digits, 16, 16))(t))
		if typeName := must(TypeName(code))(t); typeName != name {
			t.Errorf("%#04x is %s", code, typeName)
		}
		if typeCode := must(TypeCode(name))(t); typeCode != code {
			t.Errorf("%s is %#04x", name, typeCode)
		}
		if schema := must(Schema(LastVersion, code))(t); schemaNames[schema] != name+"Message" {
			t.Errorf("the schema of %s is %s", name, schemaNames[schema])
		}
		found++
	}
	if found < 40 {
		t.Errorf("there are %d types", found)
	}
}

func TestConstantsOfTypesAndSchemas(t *testing.T) {
	source := string(readFile(t, "go/protocol.go"))
	codes := regexp.MustCompile(`\tCode(\w+) += (0x\w+)\n`).FindAllStringSubmatch(source, -1)
	for _, match := range codes {
		if code := must(TypeCode(match[1]))(t); int64(code) != must(strconv.ParseInt(match[2], 0, 32))(t) {
			t.Errorf("%s is %#04x", match[0], code)
		}
	}
	schemas := regexp.MustCompile(`\tSchema(\w+) += (\d+)\n`).FindAllStringSubmatch(source, -1)
	for index, match := range schemas {
		if schema := must(SchemaNamed(match[1]))(t); schema != index || match[2] != strconv.Itoa(index) {
			t.Errorf("%s is %d", match[0], schema)
		}
	}
	if len(codes) < 40 || len(schemas) != Schemas {
		t.Errorf("there are %d codes and %d schemas", len(codes), len(schemas))
	}
}

func TestUnknownNumbersAndNames(t *testing.T) {
	const orNot = ", or not of the kind that the call is for"
	_, err := TypeName(8)
	wantError(t, err, ErrUnknown, "pendratsoa: TypeName: unknown code 0x0008"+orNot)
	_, err = TypeCode("Sleep")
	wantError(t, err, ErrUnknown, `pendratsoa: TypeCode: unknown type "Sleep"`)
	_, err = SchemaNamed("Sleep\x00")
	wantError(t, err, ErrUnknown, `pendratsoa: SchemaNamed: unknown schema "Sleep\u0000"`)
	for _, name := range []string{"", "CustomEntry(64513)", "sleepCommand", "\xff", strings.Repeat("Sleep", 100_000)} {
		if _, err := TypeCode(name); !errors.Is(err, ErrUnknown) || len(err.Error()) > 200 {
			t.Errorf("%.20s: %.300v", name, err)
		}
	}
	_, err = Schema(8, 0xfc01)
	wantError(t, err, ErrUnknown, "pendratsoa: Schema: unknown code 0xfc01"+orNot)
	_, err = Schema(4, 0xfc01)
	wantError(t, err, ErrUnknown, "pendratsoa: Schema: unknown protocol version 4 (5 to 9)")
	_, err = Header(8, 8, 0)
	wantError(t, err, ErrUnknown, "pendratsoa: Header: unknown code 0x0008"+orNot)
	_, err = Frame(8, 0xfc01, nil)
	wantError(t, err, ErrUnknown, "pendratsoa: Frame: unknown code 0xfc01"+orNot)
	_, err = Canonical(Schemas, nil)
	wantError(t, err, ErrUnknown, fmt.Sprintf("pendratsoa: Canonical: unknown schema %d (0 to %d)", Schemas, Schemas-1))
}

func TestNoNumberIsCut(t *testing.T) {
	for _, version := range []int{-1, 4, 10, 8 - 1<<32, 8 + 1<<32, math.MinInt, math.MaxInt} {
		_, schemaErr := Schema(version, CodeStart)
		_, headerErr := Header(version, CodeStart, 0)
		_, frameErr := Frame(version, CodeStart, nil)
		_, compareErr := CompareJournals(version, nil, nil, false)
		for _, err := range []error{schemaErr, headerErr, frameErr, compareErr} {
			text := fmt.Sprintf(": unknown protocol version %d (5 to 9)", version)
			if !errors.Is(err, ErrUnknown) || !strings.Contains(err.Error(), text) {
				t.Errorf("version %d: %v", version, err)
			}
		}
	}
	for _, schema := range []int{-1, Schemas, 13 - 1<<32, 13 + 1<<32, math.MinInt, math.MaxInt} {
		_, formedErr := IsWellFormed(schema, nil)
		_, canonicalErr := Canonical(schema, nil)
		_, mergeErr := Merge(schema, nil, nil)
		_, jsonErr := ToJSON(schema, nil)
		for _, err := range []error{formedErr, canonicalErr, mergeErr, jsonErr} {
			text := fmt.Sprintf(": unknown schema %d (0 to %d)", schema, Schemas-1)
			if !errors.Is(err, ErrUnknown) || !strings.Contains(err.Error(), text) {
				t.Errorf("schema %d: %v", schema, err)
			}
		}
	}
}

func TestLengthsOfHeader(t *testing.T) {
	if header := must(Header(8, CodeCallCommand, math.MaxUint32))(t); !bytes.Equal(header, unhex(t, "040d0000ffffffff")) {
		t.Errorf("the header is %x", header)
	}
	_, err := Header(8, CodeCallCommand, 1<<32)
	const long = "payload of 4294967296 bytes is too long: more than 4,294,967,295 bytes"
	wantError(t, err, ErrTooLong, "pendratsoa: Header: "+long)
	_, err = Header(8, CodeCallCommand, -1)
	wantError(t, err, ErrNegative, "pendratsoa: Header: payload length -1 is negative")
	for _, length := range []int{math.MinInt, math.MaxInt, 9 + 1<<32, 9 - 1<<32} {
		if header, err := Header(8, CodeCallCommand, length); header != nil || err == nil {
			t.Errorf("length %d: %x", length, header)
		}
	}
}

func TestFrameOfEachVersion(t *testing.T) {
	payload := unhex(t, "22120a010122080a010222030a010122030a0103")
	for version, want := range map[int]string{
		6: "00010000000000060a0401020103",
		7: "000100000000001422120a010122080a010222030a010122030a0103",
	} {
		if frame := must(Frame(version, CodeSuspension, payload))(t); !bytes.Equal(frame, unhex(t, want)) {
			t.Errorf("at version %d the frame is %x", version, frame)
		}
	}
	_, err := Frame(8, CodeError, []byte{0x12})
	wantError(t, err, ErrMalformed, "pendratsoa: Frame: payload of 1 byte is malformed")
}

func TestSchemasAreThoseOfTheLibrary(t *testing.T) {
	for round := 0; round < 2; round++ {
		for version := 0; version <= LastVersion+1; version++ {
			for code := 0; code < 0x10000; code += 1 + code/0x500 {
				want := journalSchema(uint32(version), uint16(code))
				found, err := Schema(version, uint16(code))
				if want < 0 && err == nil || want >= 0 && (err != nil || int64(found) != want) {
					t.Fatalf("version %d, code %#x: %d, %v, and not %d", version, code, found, err, want)
				}
			}
		}
	}
}
