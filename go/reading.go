package pendratsoa

import "fmt"

// A JSONReason tells why a JSON text is rejected: ReasonNotJSON, ReasonUnknownMember, ReasonRepeatedMember,
// ReasonSeveralMembers, ReasonWrongKind, ReasonOutOfRange, ReasonNotBase64 or ReasonTooDeep.
type JSONReason int

// String returns the name of the reason, as "ReasonWrongKind".
func (reason JSONReason) String() string {
	if reason < ReasonNotJSON || reason > ReasonTooDeep {
		return fmt.Sprintf("JSONReason(%d)", int(reason))
	}
	return namesOfJSONReason[reason-ReasonNotJSON]
}

// text returns the text of the reason, as "wrong kind of value".
func (reason JSONReason) text() string {
	if reason < ReasonNotJSON || reason > ReasonTooDeep {
		return reason.String()
	}
	return []string{
		"not JSON", "unknown member", "repeated member", "several members of a oneof", "wrong kind of value",
		"out of range", "not base64", "too deep",
	}[reason-ReasonNotJSON]
}

// A JSONError tells why a JSON text means no value of its schema, and where. It wraps ErrJSON, and an Error wraps it.
type JSONError struct {
	// Reason is why the text is rejected.
	Reason JSONReason
	// Offset is where the text stops being JSON, in bytes, and -1 if it is JSON.
	Offset int
	// Path leads to the rejected value, as "headers[2].key". It is empty if the text is not JSON. Names of members are as
	// they are in the text. Error returns them with their control characters escaped.
	Path string
}

// Error returns a text as "headers[2].key: wrong kind of value" or "not JSON at byte 7".
func (e *JSONError) Error() string {
	switch {
	case e.Offset >= 0:
		return fmt.Sprintf("%s at byte %d", e.Reason.text(), e.Offset)
	case e.Path != "":
		return escaped(e.Path) + ": " + e.Reason.text()
	}
	return e.Reason.text()
}

// Unwrap returns ErrJSON.
func (e *JSONError) Unwrap() error {
	return ErrJSON
}

// FromJSON returns the canonical payload of what a JSON text means, which is in protobuf's own form. A *JSONError tells
// why it means no value of the schema, and wraps ErrJSON. ErrUnknown if no schema has the number; ErrTooLong,
// ErrOutOfMemory.
func FromJSON(schema int, json []byte) ([]byte, error) {
	return payloadOfJSON("FromJSON", schema, json)
}

// payloadOfJSON is FromJSON for a call, which an error names.
func payloadOfJSON(call string, schema int, json []byte) ([]byte, error) {
	number, err := unsigned(call, "schema", schema)
	if err != nil {
		return nil, err
	}
	var numbers [readNumbers]uint64
	found, result := written(len(json), func(out []byte) int64 {
		return journalPayloadOfJSON(number, json, &numbers, out)
	})
	if result < 0 {
		return nil, schemaError(call, result, schema, bytesText("JSON", json))
	}
	payload, err := readingOf(numbers[:], found)
	if err != nil {
		return nil, &Error{call, bytesText("JSON", json), err}
	}
	return payload, nil
}

// readingOf returns the payload, or the error, that the numbers and the bytes of the library say.
func readingOf(numbers []uint64, found []byte) ([]byte, error) {
	switch kind := numbers[readingKind]; {
	case kind == read:
		return found, nil
	case kind > uint64(ReasonTooDeep):
		return nil, unexpected("kind of JSON text", kind)
	case kind == uint64(ReasonNotJSON):
		return nil, &JSONError{ReasonNotJSON, int(numbers[readingOffset]), ""}
	default:
		return nil, &JSONError{JSONReason(kind), -1, string(found)}
	}
}
