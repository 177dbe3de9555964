package pendratsoa

// IsWellFormed returns whether a payload is well-formed for a schema. ErrUnknown if no schema has the number.
func IsWellFormed(schema int, payload []byte) (bool, error) {
	number, err := unsigned("IsWellFormed", "schema", schema)
	if err != nil {
		return false, err
	}
	result := journalIsWellFormed(number, payload)
	if result < 0 {
		return false, schemaError("IsWellFormed", result, schema, bytesText("payload", payload))
	}
	return result != 0, nil
}

// Canonical returns the canonical payload of what a payload means. ErrUnknown if no schema has the number;
// ErrMalformed, ErrTooLong, ErrOutOfMemory.
func Canonical(schema int, payload []byte) ([]byte, error) {
	return canonicalOf("Canonical", schema, payload)
}

// canonicalOf is Canonical for a call, which an error names.
func canonicalOf(call string, schema int, payload []byte) ([]byte, error) {
	return payloadWritten(call, schema, payload, len(payload), journalCanonical)
}

// ToJSON returns the JSON of what a payload means, in protobuf's own form. The errors are those of Canonical.
func ToJSON(schema int, payload []byte) ([]byte, error) {
	return jsonOf("ToJSON", schema, payload)
}

// jsonOf is ToJSON for a call, which an error names.
func jsonOf(call string, schema int, payload []byte) ([]byte, error) {
	return payloadWritten(call, schema, payload, textRoom+2*len(payload), journalJSON)
}

// Merge merges the second payload into the first, as protobuf merges messages, and returns the canonical payload of the
// result. The errors are those of Canonical; each of the two has to be well-formed by itself.
func Merge(schema int, first, second []byte) ([]byte, error) {
	number, err := unsigned("Merge", "schema", schema)
	if err != nil {
		return nil, err
	}
	merged, result := written(len(first)+len(second), func(out []byte) int64 {
		return journalMerge(number, first, second, out)
	})
	if result < 0 {
		given := arguments{
			schema: named("schema", schema), payload: bytesText("first payload", first),
			second: bytesText("second payload", second),
		}
		return nil, given.refusal("Merge", result)
	}
	return merged, nil
}

// payloadWritten returns what a call writes about a payload.
func payloadWritten(
	name string, schema int, payload []byte, room int, call func(schema uint32, payload, out []byte) int64,
) ([]byte, error) {
	number, err := unsigned(name, "schema", schema)
	if err != nil {
		return nil, err
	}
	found, result := written(room, func(out []byte) int64 { return call(number, payload, out) })
	if result < 0 {
		return nil, schemaError(name, result, schema, bytesText("payload", payload))
	}
	return found, nil
}

// schemaError returns the error of a call that takes a schema: of the schema if it is unknown, and otherwise of the
// other argument.
func schemaError(call string, result int64, schema int, other string) error {
	return arguments{schema: named("schema", schema), payload: other}.refusal(call, result)
}
