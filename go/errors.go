package pendratsoa

import (
	"errors"
	"fmt"
	"io"
	"math"
	"strings"
	"unicode"
)

// The errors that an Error wraps, for errors.Is.
var (
	// ErrMalformed: a payload is not well-formed for its schema.
	ErrMalformed = errors.New("malformed payload")
	// ErrOutOfMemory: an allocation of the library failed. The call can be repeated.
	ErrOutOfMemory = errors.New("out of memory")
	// ErrNoRoom: a slice for numbers was too short, which this package never passes.
	ErrNoRoom = errors.New("not enough room")
	// ErrTooLong: a payload has, or would have, more than 4,294,967,295 bytes. A MessageTooLongError, which is about the
	// limit of a decoder, wraps it too.
	ErrTooLong = errors.New("too long: more than 4,294,967,295 bytes")
	// ErrUnknown: a version, a schema, a code or a name does not exist, or is not of the kind that the call is for.
	ErrUnknown = errors.New("unknown, or not of the kind that the call is for")
	// ErrNoID: a notification has no id.
	ErrNoID = errors.New("notification without an id")
	// ErrNoResult: a notification has an id and no result.
	ErrNoResult = errors.New("notification without a result")
	// ErrNotCanonical: a payload is well-formed for its schema, and not canonical.
	ErrNotCanonical = errors.New("payload is not canonical")
	// ErrJSON: a JSON text means no value of its schema. A JSONError wraps it.
	ErrJSON = errors.New("JSON that means no value of its schema")
	// ErrNegative: a length is negative.
	ErrNegative = errors.New("negative")
	// ErrUnexpected: the library returned the number of an error or of a kind that this package does not know, as a
	// later library may.
	ErrUnexpected = errors.New("a number that this package does not know")
)

// An Error says of which function, and of which of its arguments, an error is.
type Error struct {
	// Call is the name of the function or method that was called, as "Canonical" or "Message.JSON".
	Call string
	// Argument is the argument and its value, as "schema 53" or "payload of 12 bytes".
	Argument string
	// Err is what is wrong with it: one of the variables such as ErrUnknown, or wraps it.
	Err error
}

// Error returns a text as "pendratsoa: Canonical: payload of 3 bytes is malformed", and of what is unknown as
// "pendratsoa: Canonical: unknown schema 53 (0 to 52)".
func (e *Error) Error() string {
	return fmt.Sprintf("pendratsoa: %s: %s", e.Call, e.said())
}

// said returns what is wrong with the argument.
func (e *Error) said() string {
	if _, isWhole := e.Err.(wholeError); isWhole || e.Err == ErrOutOfMemory || e.Err == ErrNoRoom {
		return e.Err.Error()
	}
	switch e.Err {
	case ErrMalformed:
		return e.Argument + " is malformed"
	case ErrNoID:
		return e.Argument + " has no id"
	case ErrNoResult:
		return e.Argument + " has an id, and no result"
	case ErrNotCanonical, ErrTooLong, ErrNegative:
		return e.Argument + " is " + strings.TrimPrefix(e.Err.Error(), "payload is ")
	}
	return e.Argument + ": " + e.Err.Error()
}

// Unwrap returns Err.
func (e *Error) Unwrap() error {
	return e.Err
}

// A MessageError says of which message an error of a payload is. It wraps an *Error.
type MessageError struct {
	// Type is the name of the message's type, as "SetStateCommand", and Code its code.
	Type string
	Code uint16
	// Offset is where the message begins in its stream, in bytes; -1 of one that did not come in a stream.
	Offset int64
	// Err tells which function and which argument the error is about. It wraps ErrMalformed, ErrNoID or ErrNoResult.
	Err *Error
}

// Error returns a text as "pendratsoa: Message.JSON: SetStateCommand at offset 17: payload of 3 bytes is malformed".
// The text of a message without an offset has none.
func (e *MessageError) Error() string {
	where := e.Type
	if e.Offset >= 0 {
		where = fmt.Sprintf("%s at offset %d", e.Type, e.Offset)
	}
	return fmt.Sprintf("pendratsoa: %s: %s: %s", e.Err.Call, where, e.Err.said())
}

// Unwrap returns Err.
func (e *MessageError) Unwrap() error {
	return e.Err
}

// An IncompleteError is the error of a stream that ended within an item. It wraps io.ErrUnexpectedEOF.
type IncompleteError struct {
	// Offset is where the item begins in the stream, in bytes, and Rest how many bytes of it came.
	Offset int64
	Rest   int
	// Code is the code of the item's type, and Type its name, as "SetStateCommand". They are 0 and empty if only one byte
	// came, since the first two have the code; Type is empty too if no type has the code.
	Code uint16
	Type string
}

// Error returns a text as "pendratsoa: the stream ended within SetStateCommand at offset 17, after 12 bytes of it".
func (e *IncompleteError) Error() string {
	item := e.Type
	if item == "" && e.Code != 0 {
		item = codeText(e.Code)
	} else if item == "" {
		item = "an item"
	}
	return fmt.Sprintf("pendratsoa: the stream ended within %s at offset %d, after %s of it", item, e.Offset,
		byteCount(e.Rest))
}

// Unwrap returns io.ErrUnexpectedEOF.
func (e *IncompleteError) Unwrap() error {
	return io.ErrUnexpectedEOF
}

// A wholeError has a text that says all, also which argument it is of. It wraps one of the variables.
type wholeError struct {
	text string
	kind error
}

func (e wholeError) Error() string {
	return e.text
}

func (e wholeError) Unwrap() error {
	return e.kind
}

// unknown returns the error that an argument is unknown, with what a caller can make of it.
func unknown(call, argument, more string) *Error {
	return &Error{call, argument, wholeError{"unknown " + argument + more, ErrUnknown}}
}

// What is said of an unknown version, of an unknown schema, and of a code that no type has, or none of the call's kind.
var (
	ofVersion = fmt.Sprintf(" (%d to %d)", FirstVersion, LastVersion)
	ofSchema  = fmt.Sprintf(" (0 to %d)", Schemas-1)
)

const ofCode = ", or not of the kind that the call is for"

// arguments are those of a call that an error can be about, each with its value. The payload is the only one of the
// call or the first of two. What is meant asks whether another name was.
type arguments struct {
	version, schema, code, name, meant, payload, second string
}

// refusal returns the error that a negative number of the library is, of a call with these arguments.
func (given arguments) refusal(call string, number int64) error {
	argument := given.payload
	switch number {
	case unknownVersion:
		return unknown(call, given.version, ofVersion)
	case unknownSchema:
		return unknown(call, given.schema, ofSchema)
	case unknownType:
		if given.name != "" {
			return unknown(call, given.name, given.meant)
		}
		return unknown(call, given.code, ofCode)
	case malformedSecond:
		argument = given.second
	case tooLong:
		// the library does not say which payload is too long, or becomes so
		argument = "payload"
	}
	for _, other := range []string{given.payload, given.code, given.name, given.version} {
		if argument == "" {
			argument = other
		}
	}
	return &Error{call, argument, errorOf(number)}
}

// errorOf returns the error that the negative number is which the library returned.
func errorOf(number int64) error {
	switch number {
	case malformed, malformedSecond:
		return ErrMalformed
	case outOfMemory:
		return ErrOutOfMemory
	case noRoom:
		return ErrNoRoom
	case tooLong:
		return ErrTooLong
	case unknownVersion, unknownSchema, unknownType, unknownOption:
		return ErrUnknown
	case noID:
		return ErrNoID
	case noResult:
		return ErrNoResult
	case notCanonical:
		return ErrNotCanonical
	}
	return unexpected("error", number)
}

// unexpected returns the error of a number that only a later library returns.
func unexpected[Number int64 | uint64](what string, number Number) error {
	return unexpectedText(fmt.Sprintf("the %s %d", what, number))
}

// unexpectedText returns the error of what only a later library returns.
func unexpectedText(what string) error {
	return wholeError{"the library returned " + what + ", which this package does not know", ErrUnexpected}
}

// mostShown is how many characters of a name an error shows.
const mostShown = 64

// quoted returns a name from outside in quotes, of a long one its beginning.
func quoted(name string) string {
	letters := []rune(name)
	if len(letters) > mostShown {
		return `"` + escaped(string(letters[:mostShown])) + `"..`
	}
	return `"` + escaped(name) + `"`
}

// escaped returns a text from outside as errors have it: on one line, and with no command for a terminal.
func escaped(text string) string {
	var out strings.Builder
	for _, letter := range text {
		if isControl(letter) {
			fmt.Fprintf(&out, `\u%04x`, letter)
		} else {
			out.WriteRune(letter)
		}
	}
	return out.String()
}

// isControl returns whether a character ends a line, is a command for a terminal, or turns the text after it around.
func isControl(letter rune) bool {
	return unicode.IsControl(letter) || letter >= 0x2028 && letter <= 0x202e || letter >= 0x2066 && letter <= 0x2069
}

// unsigned returns a version or a schema as the library takes it, or that it is unknown. Only a conversion would cut
// it.
func unsigned(call, name string, number int) (uint32, error) {
	// as an unsigned number, a negative one is greater than all others
	if uint64(number) > math.MaxUint32 {
		if name == versionName {
			return 0, unknown(call, named(name, number), ofVersion)
		}
		return 0, unknown(call, named(name, number), ofSchema)
	}
	return uint32(number), nil
}

// versionName is what errors call a version.
const versionName = "protocol version"

// named returns an argument with its value, as "schema 53".
func named(name string, number int) string {
	return fmt.Sprintf("%s %d", name, number)
}

// codeText returns the code of a type as an argument with its value, as "code 0x040d".
func codeText(code uint16) string {
	return fmt.Sprintf("code %#04x", code)
}

// bytesText returns bytes as an argument with its value, as "payload of 12 bytes".
func bytesText(name string, bytes []byte) string {
	return name + " of " + byteCount(len(bytes))
}

// byteCount returns a number of bytes as a text, as "12 bytes".
func byteCount(count int) string {
	if count == 1 {
		return "1 byte"
	}
	return fmt.Sprintf("%d bytes", count)
}
