package pendratsoa

import (
	"errors"
	"fmt"
	"sort"
	"strings"
)

// ErrNumbering is the error that no numbering comes of a descriptor set. A NumberingError wraps it.
var ErrNumbering = errors.New("no numbering comes of the descriptor set")

// A NumberingReason tells which argument of a numbering has a fault: ReasonNoSet or ReasonNoRename.
type NumberingReason int

// Which argument of a numbering has a fault.
const (
	// ReasonNoSet: the descriptor set.
	ReasonNoSet NumberingReason = listNoSet
	// ReasonNoRename: one of the renames.
	ReasonNoRename NumberingReason = listNoRename
)

// String returns the name of the reason, as "ReasonNoSet".
func (reason NumberingReason) String() string {
	switch reason {
	case ReasonNoSet:
		return "ReasonNoSet"
	case ReasonNoRename:
		return "ReasonNoRename"
	}
	return fmt.Sprintf("NumberingReason(%d)", int(reason))
}

// A NumberingError tells why no numbering comes of a descriptor set and renames. It wraps ErrNumbering, and an Error
// wraps it.
type NumberingError struct {
	// Reason is which of the two has a fault.
	Reason NumberingReason
	// Text is the fault, as "a.proto: b.Message.field: number of a later field".
	Text string
}

// Error returns the text.
func (e *NumberingError) Error() string {
	return escaped(e.Text)
}

// Unwrap returns ErrNumbering.
func (e *NumberingError) Unwrap() error {
	return ErrNumbering
}

// A renumbering is an entry of a table: a field with its number where payloads are read and where they are written.
type renumbering = [renumberingNumbers]uint64

// How many entries there is room for at first: the protocol has fewer fields.
const renumberingRoom = 256

// A Numbering has the field numbers of a runtime whose .proto has the messages of the protocol with other numbers. By
// it a payload is read, from their numbers to those of the protocol, and written back. All other functions take
// payloads at the numbers of the protocol. A field that only the descriptor set has is left out of what is read, and
// one that only the protocol has is left out of what is written.
//
// NewNumbering makes one, and the calls of any other are ErrNumbering. Nothing changes it, so that any number of
// goroutines may use it at once.
type Numbering struct {
	reading, writing []renumbering
	text             string
	// what they are made of
	set, renames []byte
}

// NewNumbering returns the numbering of a descriptor set, which protoc or buf writes of the .proto. It finds messages
// and fields by their names. A rename has the name of a message in the set, and as its value that in the protocol; nil
// has none. A *NumberingError, which wraps ErrNumbering, if the set or a rename has a fault; ErrOutOfMemory.
func NewNumbering(set []byte, renames map[string]string) (*Numbering, error) {
	var faults []string
	for theirs, ours := range renames {
		for _, name := range []string{theirs, ours} {
			// the library takes a rename per line
			if strings.ContainsAny(name, "=\n") {
				faults = append(faults, quoted(name)+" is not the name of a message")
			}
		}
	}
	if sort.Strings(faults); len(faults) > 0 {
		return nil, &Error{"NewNumbering", "renames", &NumberingError{ReasonNoRename, faults[0]}}
	}
	lines := renameLines(renames)
	const setText = "descriptor set"
	var list [listNumbers]uint64
	text, result := written(textRoom, func(out []byte) int64 { return journalNumberingText(set, lines, &list, out) })
	if result < 0 {
		return nil, arguments{payload: setText}.refusal("NewNumbering", result)
	}
	switch kind := list[listKind]; {
	case kind == listNoRename:
		return nil, &Error{"NewNumbering", "renames", &NumberingError{ReasonNoRename, string(text)}}
	case kind == listNoSet:
		return nil, &Error{"NewNumbering", setText, &NumberingError{ReasonNoSet, string(text)}}
	case kind != listListed:
		return nil, &Error{"NewNumbering", setText, unexpected("kind of numbering", kind)}
	}
	numbering := &Numbering{text: string(text), set: append([]byte(nil), set...), renames: lines}
	for direction, table := range map[uint32]*[]renumbering{
		numberingReading: &numbering.reading,
		numberingWriting: &numbering.writing,
	} {
		*table, result = renumberings(func(table []renumbering) int64 {
			return journalNumbering(direction, set, lines, table)
		})
		if result < 0 {
			return nil, arguments{payload: setText}.refusal("NewNumbering", result)
		}
	}
	return numbering, nil
}

// renameLines returns the renames as the library takes them, always in the same order.
func renameLines(renames map[string]string) []byte {
	lines := make([]string, 0, len(renames))
	for theirs, ours := range renames {
		lines = append(lines, theirs+"="+ours)
	}
	sort.Strings(lines)
	return []byte(strings.Join(lines, "\n"))
}

// renumberings returns the table that a call writes, or the number of its error. The call is made again if it needs
// more room than the first.
func renumberings(call func(table []renumbering) int64) ([]renumbering, int64) {
	table := make([]renumbering, renumberingRoom)
	for {
		count := call(table)
		switch {
		case count < 0:
			return nil, count
		case count <= int64(len(table)):
			return table[:count:count], 0
		}
		table = make([]renumbering, count)
	}
}

// Text returns the list of fields, one per line: which are the same, renumbered, or only on one side.
func (n *Numbering) Text() string {
	return n.text
}

// ReadPayload returns a payload of a schema, from the numbers of the set to those of the protocol. ErrMalformed if it
// is not a list of fields, or a message in it is not one; ErrTooLong, ErrOutOfMemory; ErrUnknown if no schema has the
// number.
func (n *Numbering) ReadPayload(schema int, payload []byte) ([]byte, error) {
	return payloadBy("Numbering.ReadPayload", n.reading, schema, payload)
}

// WritePayload returns a payload of a schema, from the numbers of the protocol to those of the set. A canonical one
// becomes a canonical one. The errors are those of ReadPayload.
func (n *Numbering) WritePayload(schema int, payload []byte) ([]byte, error) {
	return payloadBy("Numbering.WritePayload", n.writing, schema, payload)
}

// payloadBy returns a payload of a schema by a table.
func payloadBy(call string, table []renumbering, schema int, payload []byte) ([]byte, error) {
	number, err := unsigned(call, "schema", schema)
	if err != nil {
		return nil, err
	}
	// a table has no entry of a schema that there is not
	if result := journalIsWellFormed(number, nil); result < 0 {
		return nil, schemaError(call, result, schema, bytesText("payload", payload))
	}
	out, err := appendPayloadBy(call, nil, table, int(number), payload)
	return out[:len(out):len(out)], err
}

// appendPayloadBy appends a payload of a schema by a table.
func appendPayloadBy(call string, dst []byte, table []renumbering, schema int, payload []byte) ([]byte, error) {
	if err := made(call, table); err != nil {
		return dst, err
	}
	out, result := appended(dst, len(payload)+renumberedRoom, func(out []byte) int64 {
		return journalRenumber(uint32(schema), table, payload, out)
	})
	if result < 0 {
		return dst, schemaError(call, result, schema, bytesText("payload", payload))
	}
	return out, nil
}

// made returns the error of a numbering that NewNumbering has not made: without a table all fields would be left out.
func made(call string, table []renumbering) error {
	if table == nil {
		return &Error{call, "a numbering that NewNumbering has not made", ErrNumbering}
	}
	return nil
}

// How many bytes more than what is read a payload may have, so that the library is called once for most.
const renumberedRoom = 32

// ReadStream returns a stream of a version, from the numbers of the set to those of the protocol. A custom entry, and
// what is of no type, is copied as it is, and so are trailing bytes. ErrUnknown for an unknown version. The other
// errors are those of ReadPayload; one of a payload is a *MessageError.
func (n *Numbering) ReadStream(version int, stream []byte) ([]byte, error) {
	return streamBy("Numbering.ReadStream", nil, n.reading, version, stream)
}

// WriteStream returns a stream of a version, from the numbers of the protocol to those of the set, as ReadStream. A
// frame is a stream of one message, so it writes that of a message or of a record too. The errors are those of
// ReadStream.
func (n *Numbering) WriteStream(version int, stream []byte) ([]byte, error) {
	return streamBy("Numbering.WriteStream", nil, n.writing, version, stream)
}

// Dump returns the JSON of a stream of a version at the numbers of the set, as journal dump --schema prints it. It has
// one item per line, with all fields that the set has, and a last line of the trailing bytes. ErrUnknown for an unknown
// version; ErrTooLong, ErrOutOfMemory.
func (n *Numbering) Dump(version int, stream []byte) ([]byte, error) {
	number, err := unsigned("Numbering.Dump", versionName, version)
	if err == nil {
		err = made("Numbering.Dump", n.reading)
	}
	if err != nil {
		return nil, err
	}
	lines, result := written(8*len(stream)+textRoom, func(out []byte) int64 {
		return journalNumberingDump(number, n.set, n.renames, stream, out)
	})
	if result < 0 {
		return nil, streamError("Numbering.Dump", result, version, stream)
	}
	return lines, nil
}

// streamError returns the error of a call, of the version or of the stream.
func streamError(call string, result int64, version int, stream []byte) error {
	return arguments{version: named(versionName, version), payload: bytesText("stream", stream)}.refusal(call, result)
}

// Frame returns what the function Frame returns of a payload at the numbers of the protocol, at those of the set. The
// errors are those of Frame and of WritePayload.
func (n *Numbering) Frame(version int, code uint16, payload []byte) ([]byte, error) {
	frame, err := n.appendFrame("Numbering.Frame", nil, version, code, payload)
	return frame[:len(frame):len(frame)], err
}

// AppendFrame appends the frame that Frame returns, and returns the extended slice, as append does. With an error it
// returns the slice as it was.
func (n *Numbering) AppendFrame(dst []byte, version int, code uint16, payload []byte) ([]byte, error) {
	return n.appendFrame("Numbering.AppendFrame", dst, version, code, payload)
}

func (n *Numbering) appendFrame(call string, dst []byte, version int, code uint16, payload []byte) ([]byte, error) {
	frame, err := appendFrame(call, nil, version, code, payload)
	if err != nil {
		return dst, err
	}
	return streamBy(call, dst, n.writing, version, frame)
}

// streamBy appends a stream of a version by a table. With an error it returns the slice as it was.
func streamBy(call string, dst []byte, table []renumbering, version int, stream []byte) ([]byte, error) {
	number, err := unsigned(call, versionName, version)
	if err == nil {
		err = made(call, table)
	}
	if err != nil {
		return dst, err
	}
	out, result := appended(dst, len(stream)+len(stream)/8+renumberedRoom, func(out []byte) int64 {
		return journalRenumberStream(number, table, stream, out)
	})
	if result >= 0 {
		return out, nil
	}
	if result == malformed {
		if err := firstMalformed(call, table, version, stream); err != nil {
			return dst, err
		}
	}
	return dst, streamError(call, result, version, stream)
}

// firstMalformed returns the error of the first message of a stream that cannot be written by a table.
func firstMalformed(call string, table []renumbering, version int, stream []byte) error {
	decoder := Decoder{version: version, rest: stream}
	var payload []byte
	for {
		item, missing, err := decoder.take()
		if missing > 0 || err != nil {
			return err
		}
		if message, isMessage := item.(*Message); isMessage {
			if payload, _, err = appendMessageBy(call, payload[:0], table, message); err != nil {
				return err
			}
		}
	}
}

// appendMessageBy appends the payload of a message by a table, and returns whether the message has a schema: a custom
// entry has none.
func appendMessageBy(call string, dst []byte, table []renumbering, message *Message) ([]byte, bool, error) {
	schema, err := message.Schema()
	if err != nil {
		return dst, false, nil
	}
	dst, err = appendPayloadBy(call, dst, table, schema, message.Payload)
	return dst, true, message.located(err)
}

// read returns the item of a decoder; a message gets its payload at the numbers of the protocol.
func (n *Numbering) read(item Item) (Item, error) {
	message, isMessage := item.(*Message)
	if !isMessage {
		return item, nil
	}
	payload, hasSchema, err := appendMessageBy("Decoder.Next", nil, n.reading, message)
	if err != nil {
		return nil, err
	}
	if !hasSchema {
		return item, nil
	}
	message.Payload = payload[:len(payload):len(payload)]
	return item, nil
}
