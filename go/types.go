package pendratsoa

import (
	"strings"
	"sync/atomic"
	"unsafe"
)

// LibraryVersion returns the version of the library, as "0.3.0".
func LibraryVersion() (string, error) {
	version, number := written(nameRoom, journalLibraryVersion)
	if number < 0 {
		return "", arguments{payload: "the version"}.refusal("LibraryVersion", number)
	}
	return string(version), nil
}

// Schema returns the number of the schema that payloads of a type have at a version. A custom entry has none:
// ErrUnknown.
func Schema(version int, code uint16) (int, error) {
	return schemaOf("Schema", version, code)
}

// schemaOf is Schema for a call, which an error names.
func schemaOf(call string, version int, code uint16) (int, error) {
	number, err := unsigned(call, versionName, version)
	if err != nil {
		return 0, err
	}
	known := &knownSchemas[(code^code>>5)%uint16(len(knownSchemas))]
	key := uint64(number)<<32 | uint64(code)<<16
	if found := known.Load(); found&0xffff != 0 && found&^0xffff == key {
		return int(found&0xffff) - 1, nil
	}
	schema := journalSchema(number, code)
	if schema < 0 {
		return 0, versionAndCode(version, code).refusal(call, schema)
	}
	if schema < 0xffff {
		known.Store(key | uint64(schema+1))
	}
	return int(schema), nil
}

// Schemas that the library returned, since a call of it takes longer than all else here: in each the version, the code,
// and in the last 16 bits one more than the number of the schema, or 0 where there is none.
var knownSchemas [256]atomic.Uint64

// SchemaNamed returns the number of the schema that has a name, as "SleepCommandMessage". ErrUnknown if none has.
func SchemaNamed(name string) (int, error) {
	for number, known := range schemaNames {
		if name == known {
			return number, nil
		}
	}
	return 0, unknown("SchemaNamed", "schema "+quoted(name), recordMeant(name))
}

// TypeName returns the name of the type that has a code, as "SleepCommand", or "CustomEntry(64513)" of a custom entry.
// ErrUnknown if no type has it.
func TypeName(code uint16) (string, error) {
	name, number := written(nameRoom, func(out []byte) int64 { return journalTypeName(code, out) })
	if number < 0 {
		return "", arguments{code: codeText(code)}.refusal("TypeName", number)
	}
	return string(name), nil
}

// TypeCode returns the code of the type that has a name, as "SleepCommand". ErrUnknown if none has; a custom entry has
// no name.
func TypeCode(name string) (uint16, error) {
	code := journalTypeCode([]byte(name))
	if code < 0 {
		return 0, arguments{name: "type " + quoted(name), meant: typeMeant(name)}.refusal("TypeCode", code)
	}
	return uint16(code), nil
}

// typeMeant returns the question whether a type was meant by the name of its record, or nothing if it is of none.
func typeMeant(name string) string {
	before, _, isMessage := strings.Cut(name, "Message")
	if !isMessage || !isRecord(name) {
		return ""
	}
	return didYouMean(before)
}

// recordMeant returns the question whether a record was meant by the name of its type, or nothing if it is of none.
func recordMeant(name string) string {
	if record := name + "Message"; isRecord(record) {
		return didYouMean(record)
	}
	return ""
}

func isRecord(name string) bool {
	for _, known := range schemaNames {
		if name == known {
			return true
		}
	}
	return false
}

func didYouMean(name string) string {
	return "; did you mean " + quoted(name) + "?"
}

// headerSize is how many bytes a header has, and codeSize how many of them have the code, which are the first.
const (
	headerSize = 8
	codeSize   = 2
)

// Header returns the eight bytes that come before a payload of this length. ErrUnknown for an unknown version and for
// an unassigned code; ErrTooLong for a length of more than 4,294,967,295 bytes, ErrNegative for one below 0.
func Header(version int, code uint16, payloadLength int) ([]byte, error) {
	return headerOf("Header", version, code, payloadLength)
}

// headerOf is Header for a call, which an error names.
func headerOf(call string, version int, code uint16, payloadLength int) ([]byte, error) {
	number, err := unsigned(call, versionName, version)
	if err != nil {
		return nil, err
	}
	if payloadLength < 0 {
		return nil, &Error{call, named("payload length", payloadLength), ErrNegative}
	}
	length, err := unsigned(call, "length", payloadLength)
	if err != nil {
		return nil, &Error{call, "payload of " + byteCount(payloadLength), ErrTooLong}
	}
	header, result := written(headerSize, func(out []byte) int64 { return journalHeader(number, code, length, out) })
	if result < 0 {
		return nil, versionAndCode(version, code).refusal(call, result)
	}
	return header, nil
}

// Frame returns the message that a payload holds as a frame of a version: its header, and the canonical payload after
// it. A suspension is read by its schema from version 7 on, and written by that of the version. ErrMalformed,
// ErrTooLong, ErrOutOfMemory; ErrUnknown for an unknown version and for a code that is not a named type's.
func Frame(version int, code uint16, payload []byte) ([]byte, error) {
	frame, err := appendFrame("Frame", nil, version, code, payload)
	return frame[:len(frame):len(frame)], err
}

// AppendFrame appends the frame that Frame returns to a slice, and returns the extended slice, as append does. With an
// error, which is one of those of Frame, it returns the slice as it was.
func AppendFrame(dst []byte, version int, code uint16, payload []byte) ([]byte, error) {
	return appendFrame("AppendFrame", dst, version, code, payload)
}

func appendFrame(call string, dst []byte, version int, code uint16, payload []byte) ([]byte, error) {
	number, err := unsigned(call, versionName, version)
	if err != nil {
		return dst, err
	}
	extended, result := appended(apart(dst, payload), headerSize+len(payload), func(out []byte) int64 {
		return journalFrame(number, code, payload, out)
	})
	if result < 0 {
		given := versionAndCode(version, code)
		given.payload = bytesText("payload", payload)
		return dst, given.refusal(call, result)
	}
	return extended, nil
}

// earlierSchema returns the schema of a type at a version, and whether the type has another one since.
func earlierSchema(version int, code uint16) (schema int, isEarlier bool) {
	schema, err := Schema(version, code)
	if err != nil {
		return 0, false
	}
	last, err := Schema(LastVersion, code)
	return schema, err == nil && schema != last
}

// appendEarlierFrame appends the frame of a payload whose schema the type has at earlier versions only, and which Frame
// would read by the later one. ErrUnknown if the version has another.
func appendEarlierFrame(call string, dst []byte, version int, code uint16, schema int, payload []byte) ([]byte, error) {
	found, err := schemaOf(call, version, code)
	if err != nil {
		return dst, err
	}
	if found != schema {
		given := named(versionName, version)
		return dst, &Error{call, given, wholeError{given + " has no " + schemaNames[schema], ErrUnknown}}
	}
	canonical, err := canonicalOf(call, schema, payload)
	if err != nil {
		return dst, err
	}
	header, err := headerOf(call, version, code, len(canonical))
	if err != nil {
		return dst, err
	}
	return append(append(dst, header...), canonical...), nil
}

// versionAndCode returns the two arguments of a call that takes them.
func versionAndCode(version int, code uint16) arguments {
	return arguments{version: named(versionName, version), code: codeText(code)}
}

// Room in bytes that is enough for each name of a type, and for most texts.
const (
	nameRoom = 64
	textRoom = 256
)

// written returns what a call writes, or the number of its error.
func written(room int, call func(out []byte) int64) ([]byte, int64) {
	out, number := appended(nil, room, call)
	return out[:len(out):len(out)], number
}

// appended appends what a call writes, or returns the number of its error. The call is made again if it needs more room
// than the first, which is what is expected.
func appended(dst []byte, room int, call func(out []byte) int64) ([]byte, int64) {
	dst = roomFor(dst, room, 0)
	for {
		length := call(dst[len(dst):cap(dst)])
		switch {
		case length < 0:
			return nil, length
		case length <= int64(cap(dst)-len(dst)):
			return dst[:len(dst)+int(length)], 0
		}
		dst = withRoom(dst, int(length))
	}
}

// apart returns a slice without the room after it if a source has bytes there: the library reads nothing that it
// writes to.
func apart(dst, source []byte) []byte {
	room := dst[len(dst):cap(dst)]
	if len(room) == 0 || len(source) == 0 {
		return dst
	}
	begin, from := uintptr(unsafe.Pointer(&room[0])), uintptr(unsafe.Pointer(&source[0]))
	if from < begin+uintptr(len(room)) && begin < from+uintptr(len(source)) {
		return dst[:len(dst):len(dst)]
	}
	return dst
}

// roomFor returns the slice with room for at least a number of further bytes, and for about as many more as come next
// to them if it has not that room: so nothing is allocated where all of them have room.
func roomFor(dst []byte, least, beside int) []byte {
	if dst != nil && cap(dst)-len(dst) >= least {
		return dst
	}
	return withRoom(dst, least+beside)
}

// withRoom returns the slice with room for a number of further bytes, and for more if there is something in it, so that
// a slice that grows is seldom copied.
func withRoom(slice []byte, room int) []byte {
	if len(slice) == 0 {
		return make([]byte, 0, room)
	}
	return append(slice, make([]byte, room)...)[:len(slice)]
}
