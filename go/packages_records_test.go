package pendratsoa

import (
	"bytes"
	"errors"
	"fmt"
	"math"
	"math/big"
	"reflect"
	"regexp"
	"strconv"
	"strings"
	"testing"
	"unicode/utf8"
)

// The lines of conformance/packages.cases about records and JSON, which its README specifies.

// caseFields are the fields of a record by their words. The first number that has no place in its field is kept.
type caseFields struct {
	t          *testing.T
	words      map[string]string
	outOfRange string
}

func (f *caseFields) bytes(name string) []byte {
	return bytesOf(f.t, f.words[name])
}

func (f *caseFields) text(name string) string {
	return string(f.bytes(name))
}

// has returns whether a field is there.
func (f *caseFields) has(name string) bool {
	_, isThere := f.words[name]
	return isThere
}

// number returns the number of a field, which is from a least to a greatest number.
func (f *caseFields) number(name, path string, least int64, most uint64) uint64 {
	word := f.words[name]
	if word == "" {
		return 0
	}
	exact, _ := new(big.Int).SetString(word, 10)
	isIn := exact.Cmp(big.NewInt(least)) >= 0 && exact.Cmp(new(big.Int).SetUint64(most)) <= 0
	if !isIn && f.outOfRange == "" {
		f.outOfRange = path
	}
	return uint64(new(big.Int).And(exact, new(big.Int).SetUint64(math.MaxUint64)).Uint64())
}

func (f *caseFields) u32(name string) uint32 {
	return uint32(f.number(name, name, 0, math.MaxUint32))
}

func (f *caseFields) optionalText(name string) *string {
	if !f.has(name) {
		return nil
	}
	text := f.text(name)
	return &text
}

func (f *caseFields) optionalU32(name string) *uint32 {
	if !f.has(name) {
		return nil
	}
	number := f.u32(name)
	return &number
}

func (f *caseFields) value(name string) *Value {
	if !f.has(name) {
		return nil
	}
	return &Value{Content: f.bytes(name)}
}

func (f *caseFields) headers(name string) []HeaderRecord {
	if !f.has(name) {
		return nil
	}
	var headers []HeaderRecord
	for _, word := range strings.Split(f.words[name], ",") {
		key, value, _ := strings.Cut(word, ":")
		headers = append(headers, HeaderRecord{string(bytesOf(f.t, key)), string(bytesOf(f.t, value))})
	}
	return headers
}

// The record of each type that a line of the kind encode has, of its fields.
var recordsOf = map[string]func(f *caseFields) MessageRecord{
	"StartMessage": func(f *caseFields) MessageRecord {
		return &StartMessage{
			ID: f.bytes("id"), DebugID: f.text("debug_id"), KnownEntries: f.u32("known_entries"),
			PartialState: f.words["partial_state"] == "true", Scope: f.optionalText("scope"),
			DurationSinceLastStoredEntry: f.number("duration_since_last_stored_entry",
				"duration_since_last_stored_entry", 0, math.MaxUint64),
		}
	},
	"ErrorMessage": func(f *caseFields) MessageRecord {
		behavior := f.number("behavior", "behavior", math.MinInt32, math.MaxInt32)
		return &ErrorMessage{
			Code: f.u32("code"), RelatedCommandIndex: f.optionalU32("related_command_index"),
			Behavior: ErrorBehavior(behavior),
		}
	},
	"InputCommandMessage": func(f *caseFields) MessageRecord {
		return &InputCommandMessage{Headers: f.headers("headers"), Value: f.value("value")}
	},
	"SendSignalCommandMessage": func(f *caseFields) MessageRecord {
		record := &SendSignalCommandMessage{
			TargetInvocationID: f.text("target_invocation_id"), EntryName: f.text("entry_name"),
		}
		switch {
		case f.has("idx"):
			record.SignalID = SendSignalCommandMessageIdx(f.u32("idx"))
		case f.has("name"):
			record.SignalID = SendSignalCommandMessageName(f.text("name"))
		}
		switch {
		case f.has("void"):
			record.Result = new(Void)
		case f.has("value"):
			record.Result = f.value("value")
		case f.has("failure"):
			record.Result = &Failure{Code: uint32(f.number("failure", "failure.code", 0, math.MaxUint32))}
		}
		return record
	},
}

func encodeCase(t *testing.T, words []string) string {
	fields := &caseFields{t: t, words: map[string]string{}}
	for _, word := range words[2:] {
		name, value, _ := strings.Cut(word, "=")
		fields.words[name] = value
	}
	record := recordsOf[words[1]](fields)
	if fields.outOfRange != "" {
		return "out_of_range " + fields.outOfRange
	}
	version := must(strconv.Atoi(words[0]))(t)
	frame, err := record.Frame(version)
	message, other := NewMessageOf(version, record)
	// both have the same errors, each with its own name
	text := strings.Replace(fmt.Sprint(err), strings.TrimPrefix(fmt.Sprintf("%T.Frame", record), "*pendratsoa."),
		"NewMessageOf", 1)
	if fmt.Sprint(other) != text || (message == nil) != (err != nil) ||
		message != nil && !bytes.Equal(message.Bytes(), frame) {
		t.Errorf("%v, %v", message, other)
	}
	var refused *FieldError
	switch {
	case errors.Is(err, ErrUnknown):
		return noted(err, "unknown")
	case errors.As(err, &refused) && errors.Is(err, ErrField):
		reason := strings.ToLower(strings.NewReplacer("-", "", " ", "_").Replace(refused.Reason))
		return noted(err, reason+" "+refused.Path)
	case err != nil:
		return err.Error()
	}
	return digitsOf(frame)
}

func messageCase(t *testing.T, words []string) string {
	record := newRecord(must(SchemaNamed(words[1]))(t)).(MessageRecord)
	message, err := NewMessageOf(must(strconv.Atoi(words[0]))(t), record)
	switch {
	case errors.Is(err, ErrUnknown):
		return noted(err, "unknown")
	case err != nil:
		return err.Error()
	}
	return message.String()
}

func decodeCase(t *testing.T, words []string) string {
	record := newRecord(must(SchemaNamed(words[0]))(t))
	if err := record.UnmarshalBinary(bytesOf(t, words[1])); err != nil {
		if errors.Is(err, ErrMalformed) {
			return noted(err, "malformed")
		}
		return err.Error()
	}
	var fields []string
	value := reflect.ValueOf(record).Elem()
	for i := 0; i < value.NumField(); i++ {
		field := value.Field(i)
		if field.IsZero() || field.Kind() == reflect.Slice && field.Len() == 0 {
			continue
		}
		name, word := wordOfField(t, field.Interface())
		if name == "" || value.Type().Field(i).Name == "Value" {
			name = snake(value.Type().Field(i).Name)
		}
		fields = append(fields, name+"="+word)
	}
	if len(fields) == 0 {
		return "-"
	}
	return strings.Join(fields, ", ")
}

// snake returns a name as the lines have it, as known_entries.
func snake(name string) string {
	return strings.ToLower(regexp.MustCompile(`([a-z])([A-Z])`).ReplaceAllString(name, "${1}_$2"))
}

// wordOfField returns a value of a field as a word, and the name of a member of a oneof.
func wordOfField(t *testing.T, value any) (member, word string) {
	switch value := value.(type) {
	case []byte:
		return "", digitsOf(value)
	case string:
		if !utf8.ValidString(value) {
			t.Errorf("a text is not UTF-8: %q", value)
		}
		return "", digitsOf([]byte(value))
	case *string:
		return "", digitsOf([]byte(*value))
	case *uint32:
		return "", fmt.Sprint(*value)
	case ErrorBehavior:
		return "", fmt.Sprint(int32(value))
	case []HeaderRecord:
		var words []string
		for _, header := range value {
			words = append(words, digitsOf([]byte(header.Key))+":"+digitsOf([]byte(header.Value)))
		}
		return "", strings.Join(words, ",")
	case SendSignalCommandMessageIdx:
		return "idx", fmt.Sprint(uint32(value))
	case SendSignalCommandMessageName:
		return "name", digitsOf([]byte(value))
	case *Void:
		return "void", "-"
	case *Value:
		return "value", digitsOf(value.Content)
	case *Failure:
		return "failure", fmt.Sprint(value.Code)
	}
	return "", fmt.Sprint(value)
}

func jsonCase(t *testing.T, words []string) string {
	version := must(strconv.Atoi(words[0]))(t)
	code, err := TypeCode(words[1])
	var message *Message
	if err == nil {
		message, err = MessageFromJSON(version, code, bytesOf(t, words[2]))
	}
	var refused *JSONError
	switch {
	case errors.Is(err, ErrUnknown):
		return noted(err, "unknown")
	case errors.As(err, &refused) && errors.Is(err, ErrJSON):
		place := refused.Path
		if refused.Offset >= 0 {
			place = strconv.Itoa(refused.Offset)
		}
		return noted(err, strings.TrimSuffix(reasonWords[refused.Reason]+" "+place, " "))
	case err != nil:
		return err.Error()
	case message.Version != version || message.Type() != words[1]:
		return "another message: " + message.String()
	}
	return digitsOf(message.Payload)
}
