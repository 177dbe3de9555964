package pendratsoa

import (
	"bytes"
	"encoding/hex"
	"errors"
	"fmt"
	"io"
	"os"
	"path/filepath"
	"strconv"
	"strings"
	"testing"
	"testing/iotest"
)

// A vectorKind tells how many words of a test vector come before its bytes, and what the library returns for them.
type vectorKind struct {
	names  int
	result func(names []string, data [][]byte) (string, error)
}

// The kinds of test vectors (conformance/README.md). No call prints a record.
var vectorKinds = map[string]vectorKind{
	"payload": {1, payloadVector},
	"merge":   {1, mergeVector},
	"frame":   {2, frameVector},
	"stream":  {1, streamVector},
	"compare": {1, compareVector},
	"json":    {1, jsonVector},
	"read":    {1, readVector},
}

func TestConformance(t *testing.T) {
	passed, failed := 0, 0
	for _, pattern := range []string{"../conformance/*.txt", "../conformance/json/*.txt"} {
		for _, path := range must(filepath.Glob(pattern))(t) {
			for _, line := range strings.Split(string(must(os.ReadFile(path))(t)), "\n") {
				if line == "" || strings.HasPrefix(line, "#") || strings.HasPrefix(line, "record ") ||
					strings.HasPrefix(line, "fields ") {
					continue
				}
				question, want, _ := strings.Cut(line, " = ")
				if found := vectorResult(question); found == want {
					passed++
				} else {
					failed++
					t.Errorf("%.300s\nreturned: %.300s", line, found)
				}
			}
		}
	}
	// a release is tried with a part of them, whose number it gives
	least := 13_000
	if given, isGiven := os.LookupEnv("TEST_VECTORS"); isGiven {
		least = must(strconv.Atoi(given))(t)
	}
	if passed+failed < least {
		t.Errorf("there are %d test vectors, and not %d", passed+failed, least)
	}
	fmt.Printf("%d passed, %d failed\n", passed, failed)
}

// vectorResult returns what the library returns for the words of a test vector.
func vectorResult(question string) string {
	kind, rest, _ := strings.Cut(question, " ")
	words := strings.Split(rest, " ")
	vector, isKnown := vectorKinds[kind]
	if !isKnown || len(words) <= vector.names {
		return "no such test vector"
	}
	var data [][]byte
	for _, word := range words[vector.names:] {
		bytes, err := hex.DecodeString(strings.TrimPrefix(word, "-"))
		if err != nil {
			return err.Error()
		}
		data = append(data, bytes)
	}
	result, err := vector.result(words[:vector.names], data)
	switch {
	case errors.Is(err, ErrMalformed):
		return "malformed"
	case err != nil:
		return err.Error()
	}
	return result
}

// digits returns bytes as test vectors have them.
func digits(data []byte) string {
	if len(data) == 0 {
		return "-"
	}
	return hex.EncodeToString(data)
}

func payloadVector(names []string, data [][]byte) (string, error) {
	schema, err := SchemaNamed(names[0])
	if err != nil {
		return "", err
	}
	isWellFormed, err := IsWellFormed(schema, data[0])
	if err != nil {
		return "", err
	}
	canonical, err := Canonical(schema, data[0])
	if isWellFormed != (err == nil) {
		return "", fmt.Errorf("well-formed: %v, and canonical: %w", isWellFormed, err)
	} else if err != nil {
		return "", err
	}
	// a canonical payload is its own result, and has the same JSON
	again, err := Canonical(schema, canonical)
	if err != nil || !bytes.Equal(again, canonical) {
		return "", fmt.Errorf("the canonical payload of %x is %x, %w", canonical, again, err)
	}
	// so has the record that it means
	record := newRecord(schema)
	if err := record.UnmarshalBinary(data[0]); err != nil {
		return "", fmt.Errorf("the record of %x: %v", data[0], err)
	}
	if err := encodedAs(record, canonical); err != nil {
		return "", err
	}
	json, err := ToJSON(schema, data[0])
	canonicalJSON, canonicalErr := ToJSON(schema, canonical)
	if err != nil || canonicalErr != nil || !bytes.Equal(json, canonicalJSON) {
		return "", fmt.Errorf("the JSON is %s, %v, of the canonical payload %s, %v", json, err, canonicalJSON, canonicalErr)
	}
	if err := readBack(schema, json, canonical); err != nil {
		return "", err
	}
	return digits(canonical), nil
}

// encodedAs returns an error if a record has not this payload, by each way in which it is written.
func encodedAs(record Record, canonical []byte) error {
	encoded, err := record.MarshalBinary()
	if err != nil || !bytes.Equal(encoded, canonical) {
		return fmt.Errorf("the record is %x, %v, and not %x", encoded, err, canonical)
	}
	appended, err := record.AppendBinary([]byte("before"))
	if err != nil || string(appended) != "before"+string(canonical) {
		return fmt.Errorf("the record is appended as %x, %v, and is %x", appended, err, canonical)
	}
	writer := newWriter()
	record.write(writer, 0)
	byTable, err := writer.appendTo(nil, &place{schema: record.Schema()})
	if err != nil || !bytes.Equal(byTable, canonical) {
		return fmt.Errorf("the record by its table is %x, %v, and not %x", byTable, err, canonical)
	}
	code, isMessage := codesOfSchemas()[record.Schema()]
	if !isMessage {
		return nil
	}
	wanted, err := Frame(LastVersion, code, canonical)
	if err != nil {
		return err
	}
	frame, err := record.(interface{ Frame(int) ([]byte, error) }).Frame(LastVersion)
	if err != nil || !bytes.Equal(frame, wanted) {
		return fmt.Errorf("the frame is %x, %v, and not %x", frame, err, wanted)
	}
	return nil
}

var codes map[int]uint16

// codesOfSchemas returns the code of each type by the number of its schema at the last version.
func codesOfSchemas() map[int]uint16 {
	if codes == nil {
		codes = map[int]uint16{}
		for code := 0; code <= 0xffff; code++ {
			if schema, err := Schema(LastVersion, uint16(code)); err == nil {
				codes[schema] = uint16(code)
			}
		}
	}
	return codes
}

// readBack returns an error if a JSON text is not read as this payload.
func readBack(schema int, json, canonical []byte) error {
	payload, err := FromJSON(schema, json)
	if err != nil {
		return fmt.Errorf("the payload of %s: %v", json, err)
	} else if !bytes.Equal(payload, canonical) {
		return fmt.Errorf("the payload of %s is %x, and not %x", json, payload, canonical)
	}
	return nil
}

func mergeVector(names []string, data [][]byte) (string, error) {
	schema, err := SchemaNamed(names[0])
	if err != nil {
		return "", err
	}
	merged, err := Canonical(schema, data[0])
	for _, payload := range data[1:] {
		if err != nil {
			break
		}
		merged, err = Merge(schema, merged, payload)
	}
	return digits(merged), err
}

func frameVector(names []string, data [][]byte) (string, error) {
	code, err := TypeCode(names[0])
	if err != nil {
		return "", err
	}
	version, err := strconv.Atoi(names[1])
	if err != nil {
		return "", err
	}
	frame, err := Frame(version, code, data[0])
	if err != nil {
		return "", err
	}
	header, err := Header(version, code, len(frame)-headerSize)
	if err != nil || !bytes.HasPrefix(frame, header) {
		return "", fmt.Errorf("the frame is %x, and the header %x, %w", frame, header, err)
	}
	return digits(frame), nil
}

func streamVector(names []string, data [][]byte) (string, error) {
	version, err := strconv.Atoi(names[0])
	if err != nil {
		return "", err
	}
	var chunks []io.Reader
	for _, chunk := range data {
		chunks = append(chunks, bytes.NewReader(chunk))
	}
	listing, err := list(NewDecoder(io.MultiReader(chunks...), version))
	if err != nil {
		return "", err
	}
	whole := bytes.NewReader(bytes.Join(data, nil))
	again, err := list(NewDecoder(iotest.OneByteReader(whole), version))
	if err != nil || again != listing {
		return "", fmt.Errorf("the listing is %s, and byte by byte %s, %w", listing, again, err)
	}
	return listing, nil
}

// list returns the listing of a stream.
func list(decoder *Decoder) (string, error) {
	var items []string
	for {
		item, err := decoder.Next()
		if err == io.EOF || errors.Is(err, io.ErrUnexpectedEOF) {
			return strings.Join(append(items, fmt.Sprintf("rest %d", decoder.Rest())), ", "), nil
		} else if err != nil {
			return "", err
		}
		items = append(items, item.String())
	}
}

func compareVector(names []string, data [][]byte) (string, error) {
	code, err := TypeCode(names[0])
	if err != nil {
		return "", err
	}
	var words []string
	for _, ignorePayloads := range []bool{false, true} {
		isSame, err := HeaderEq(code, data[0], data[1], ignorePayloads)
		if err != nil {
			return "", err
		} else if isSame {
			words = append(words, "same")
		} else {
			words = append(words, "other")
		}
	}
	difference, err := Difference(code, data[0], data[1])
	return strings.Join(append(words, digits([]byte(difference))), " "), err
}

func jsonVector(names []string, data [][]byte) (string, error) {
	schema, err := SchemaNamed(names[0])
	if err != nil {
		return "", err
	}
	json, err := ToJSON(schema, data[0])
	if err != nil {
		return "", err
	}
	canonical, err := Canonical(schema, data[0])
	if err != nil {
		return "", err
	}
	return string(json), readBack(schema, json, canonical)
}

// reasonWords are the reasons for which a JSON text is not taken, as test vectors have them.
var reasonWords = map[JSONReason]string{
	ReasonNotJSON:        "not_json",
	ReasonUnknownMember:  "unknown_member",
	ReasonRepeatedMember: "repeated_member",
	ReasonSeveralMembers: "several_members",
	ReasonWrongKind:      "wrong_kind",
	ReasonOutOfRange:     "out_of_range",
	ReasonNotBase64:      "not_base64",
	ReasonTooDeep:        "too_deep",
}

// readVector returns the payload that a JSON text is read as, or why it is not, and where.
func readVector(names []string, data [][]byte) (string, error) {
	schema, err := SchemaNamed(names[0])
	if err != nil {
		return "", err
	}
	payload, err := FromJSON(schema, data[0])
	var refused *JSONError
	if errors.As(err, &refused) {
		place := refused.Path
		if refused.Offset >= 0 {
			place = fmt.Sprint(refused.Offset)
		}
		return strings.TrimSuffix(reasonWords[refused.Reason]+" "+place, " "), nil
	}
	return digits(payload), err
}
