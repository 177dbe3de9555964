package pendratsoa

import (
	"encoding/binary"
	"fmt"
	"io"
	"unsafe"
)

// An Item is what a stream consists of: a *Message, an *UnknownCode or a *Skipped. Its String is a line of a listing.
// Each has a field Code. One that was received begins with it, so binary.BigEndian.Uint16(item.Bytes()) is the code of
// an item of any kind.
type Item interface {
	fmt.Stringer
	// WriteTo writes the item as received.
	io.WriterTo
	// Bytes returns the item as received, byte for byte, header and payload: what a proxy passes on if it does not
	// change it. Those of an item of a Decoder are a part of its block, as the payload is, without a copy.
	Bytes() []byte
	// Offset returns where the item begins in its stream, in bytes; -1 of one that did not come in a stream.
	Offset() int64
	isItem()
}

// A Message is a message of a stream of a version.
type Message struct {
	// Version is that of its stream, and Code that of its type.
	Version int
	Code    uint16
	// RequestedAck tells whether its header requests an acknowledgement.
	RequestedAck bool
	// Payload is its payload, in any encoding. That of a Decoder with a Numbering is at the numbers of the protocol.
	// Bytes and WriteTo of a message that was received ignore what is put here: another payload is for a new Message.
	Payload  []byte
	came     received
	position position
}

// An UnknownCode is eight bytes with an unassigned code, before version 9: an item of its own, which the programs call
// an unknown header.
type UnknownCode struct {
	// Version is that of its stream, and Code the unassigned code.
	Version int
	Code    uint16
	// Word is the eight bytes as one big-endian number.
	Word     uint64
	position position
}

// A Skipped is a message of an unknown type, which is skipped with its payload from version 9 on.
type Skipped struct {
	// Version is that of its stream, and Code the unassigned code.
	Version int
	Code    uint16
	// Word is the eight bytes of the header as one big-endian number.
	Word uint64
	// Payload is its payload.
	Payload  []byte
	came     received
	position position
}

func (*Message) isItem()     {}
func (*UnknownCode) isItem() {}
func (*Skipped) isItem()     {}

// A received is a message as it was received: its first byte, or nil of one that was not, and the size of its payload.
// A slice of it would make each item a quarter larger.
type received struct {
	first   *byte
	payload uint32
}

// receivedAs returns a message as it was received, header and payload.
func receivedAs(bytes []byte) received {
	return received{&bytes[0], uint32(len(bytes) - headerSize)}
}

// bytes returns the message, or nil if it was not received.
func (r received) bytes() []byte {
	if r.first == nil {
		return nil
	}
	return unsafe.Slice(r.first, headerSize+int(r.payload))
}

// more returns how many bytes more the payload as received has than another one; less than none wraps. The library
// counts those of the payload, which a numbering has read.
func (r received) more(payload []byte) uint64 {
	if r.first == nil {
		return 0
	}
	return uint64(r.payload) - uint64(len(payload))
}

// A position is one more than the offset of an item in its stream, and 0 of one that did not come in a stream.
type position int64

func positionAt(offset int64) position {
	return position(offset + 1)
}

func (p position) offset() int64 {
	return int64(p) - 1
}

// Offset returns where the message begins in its stream, in bytes; -1 of one that did not come in a stream.
func (m *Message) Offset() int64 {
	return m.position.offset()
}

// Offset returns where the eight bytes begin in their stream, in bytes; -1 if they did not come in a stream.
func (u *UnknownCode) Offset() int64 {
	return u.position.offset()
}

// Offset returns where the message begins in its stream, in bytes; -1 of one that did not come in a stream.
func (s *Skipped) Offset() int64 {
	return s.position.offset()
}

// String returns the name of the type and the length of the payload in bytes, as "InputCommand 9", with " ack" if the
// header requests an acknowledgement.
func (m *Message) String() string {
	name := m.Type()
	if name == "" {
		name = codeText(m.Code)
	}
	text := fmt.Sprintf("%s %d", name, len(m.Payload))
	if m.RequestedAck {
		text += " ack"
	}
	return text
}

// String returns the code, as "unknown 0x8".
func (u *UnknownCode) String() string {
	return fmt.Sprintf("unknown %#x", u.Code)
}

// String returns the code and the length of the payload in bytes, as "skipped 0x8 2".
func (s *Skipped) String() string {
	return fmt.Sprintf("skipped %#x %d", s.Code, len(s.Payload))
}

// Bytes returns the message as received, whatever was set in it since. Of one that did not come in a stream they are
// its payload as it is after the header of its type, and nil if its version, its code or the length has no header.
func (m *Message) Bytes() []byte {
	bytes, _ := m.bytes("Message.Bytes")
	return bytes
}

func (m *Message) bytes(call string) ([]byte, error) {
	if bytes := m.came.bytes(); bytes != nil {
		return bytes, nil
	}
	header, err := headerOf(call, m.Version, m.Code, len(m.Payload))
	if err != nil {
		return nil, err
	}
	return append(header, m.Payload...), nil
}

// Bytes returns the eight bytes.
func (u *UnknownCode) Bytes() []byte {
	return wordBytes(u.Word, nil)
}

// Bytes returns the message as received, or its payload after its word if it did not come in a stream.
func (s *Skipped) Bytes() []byte {
	if bytes := s.came.bytes(); bytes != nil {
		return bytes
	}
	return wordBytes(s.Word, s.Payload)
}

// WriteTo writes the message as received, as Bytes returns it. Of one that did not come in a stream, the errors are
// also those of Header.
func (m *Message) WriteTo(writer io.Writer) (int64, error) {
	bytes, err := m.bytes("Message.WriteTo")
	if err != nil {
		return 0, err
	}
	return writeAll(writer, bytes)
}

// WriteTo writes the eight bytes.
func (u *UnknownCode) WriteTo(writer io.Writer) (int64, error) {
	return writeAll(writer, u.Bytes())
}

// WriteTo writes the message as received, as Bytes returns it.
func (s *Skipped) WriteTo(writer io.Writer) (int64, error) {
	return writeAll(writer, s.Bytes())
}

// wordBytes returns the bytes of a word, and a payload after them.
func wordBytes(word uint64, payload []byte) []byte {
	bytes := make([]byte, headerSize, headerSize+len(payload))
	binary.BigEndian.PutUint64(bytes, word)
	return append(bytes, payload...)
}

func writeAll(writer io.Writer, bytes []byte) (int64, error) {
	written, err := writer.Write(bytes)
	return int64(written), err
}

// NewMessage returns the message of a type with a payload, which is taken as it is. It requests an acknowledgement if
// the header of its type does at this version. The errors are those of Header.
func NewMessage(version int, code uint16, payload []byte) (*Message, error) {
	return newMessage("NewMessage", version, code, payload)
}

// newMessage is NewMessage for a call, which an error names.
func newMessage(call string, version int, code uint16, payload []byte) (*Message, error) {
	header, err := headerOf(call, version, code, len(payload))
	if err != nil {
		return nil, err
	}
	// the flag is the high bit of the third byte
	return &Message{Version: version, Code: code, Payload: payload, RequestedAck: header[2]&0x80 != 0}, nil
}

// MessageFromJSON returns the message of a named type that a JSON text means. Its payload is canonical, and it requests
// an acknowledgement if the header of its type does at this version. The errors are those of Schema and FromJSON.
func MessageFromJSON(version int, code uint16, json []byte) (*Message, error) {
	const call = "MessageFromJSON"
	schema, err := schemaOf(call, version, code)
	if err != nil {
		return nil, err
	}
	payload, err := payloadOfJSON(call, schema, json)
	if err != nil {
		return nil, err
	}
	return newMessage(call, version, code, payload)
}

// Type returns the name of the message's type, as "SleepCommand", or "CustomEntry(64513)" of a custom entry. It is
// empty if no type has the code, which no message of a stream has.
func (m *Message) Type() string {
	name, _ := TypeName(m.Code)
	return name
}

// Schema returns the number of the schema of the payload. A custom entry has none: ErrUnknown.
func (m *Message) Schema() (int, error) {
	return schemaOf("Message.Schema", m.Version, m.Code)
}

// IsCommand returns whether the message is a command, by its code. GetStateEphemeralCommand is neither a command nor a
// notification, since it is not recorded in the journal.
//
// A custom entry is a message of any code that no named type has, with one of its upper six bits set, 0x0400 and above.
// By its code it may count as a command or a notification; a replay does not compare it.
func (m *Message) IsCommand() bool {
	return firstCommand <= m.Code && m.Code < firstNotification
}

// IsNotification returns whether the message is a notification, by its code. GetStateEphemeralNotification is neither a
// command nor a notification, since it is not recorded in the journal. A custom entry counts by its code, as
// IsCommand describes.
func (m *Message) IsNotification() bool {
	return firstNotification <= m.Code && m.Code < endOfNotifications
}

// JSON returns the JSON of what the payload means. The errors are those of Schema and ToJSON; one of the payload is a
// *MessageError.
func (m *Message) JSON() ([]byte, error) {
	schema, err := schemaOf("Message.JSON", m.Version, m.Code)
	if err != nil {
		return nil, err
	}
	json, err := jsonOf("Message.JSON", schema, m.Payload)
	return json, m.located(err)
}

// Canonical returns the canonical encoding of the payload. The errors are those of Schema and Canonical; one of the
// payload is a *MessageError.
func (m *Message) Canonical() ([]byte, error) {
	schema, err := schemaOf("Message.Canonical", m.Version, m.Code)
	if err != nil {
		return nil, err
	}
	canonical, err := canonicalOf("Message.Canonical", schema, m.Payload)
	return canonical, m.located(err)
}

// Frame returns the message as a frame of a version, its own or another: a header, and the canonical payload after it.
// The errors are those of the function Frame, and ErrUnknown for a version that cannot have the payload: a suspension
// before version 7 has no frame from 7 on, and one since then has a frame at each. An error of the payload is a
// *MessageError.
func (m *Message) Frame(version int) ([]byte, error) {
	frame, err := m.appendFrame("Message.Frame", nil, version)
	return frame[:len(frame):len(frame)], err
}

// AppendFrame appends the frame that Frame returns, and returns the extended slice, as append does. With an error,
// which is one of those of Frame, it returns the slice as it was.
func (m *Message) AppendFrame(dst []byte, version int) ([]byte, error) {
	return m.appendFrame("Message.AppendFrame", dst, version)
}

func (m *Message) appendFrame(call string, dst []byte, version int) ([]byte, error) {
	schema, isEarlier := earlierSchema(m.Version, m.Code)
	var err error
	if isEarlier {
		dst, err = appendEarlierFrame(call, dst, version, m.Code, schema, m.Payload)
	} else {
		dst, err = appendFrame(call, dst, version, m.Code, m.Payload)
	}
	return dst, m.located(err)
}

// WriteFrame writes the frame that Frame returns. The errors are those of Frame and of the writer.
func (m *Message) WriteFrame(writer io.Writer, version int) error {
	frame, err := m.appendFrame("Message.WriteFrame", nil, version)
	if err != nil {
		return err
	}
	_, err = writer.Write(frame)
	return err
}

// Notification returns the id and the result of the message, if it is a notification. The errors are those of
// ReadNotification; one of the payload is a *MessageError.
func (m *Message) Notification() (Notification, error) {
	notification, err := readNotification("Message.Notification", m.Code, m.Payload)
	return notification, m.located(err)
}

// located returns an error of the payload with the type and the offset of the message, and any other as it is.
func (m *Message) located(err error) error {
	failed, isError := err.(*Error)
	if !isError {
		return err
	}
	switch failed.Err {
	case ErrMalformed, ErrNoID, ErrNoResult:
		return &MessageError{Type: m.Type(), Code: m.Code, Offset: m.Offset(), Err: failed}
	}
	return err
}

// receive makes the message that of a version that the numbers of the library say, and that has these bytes, at its
// position.
func (m *Message) receive(version int, numbers *[itemNumbers]uint64, bytes []byte, at position) {
	m.Version, m.Code, m.RequestedAck = version, uint16(numbers[itemCode]), numbers[itemRequestedAck] != 0
	m.Payload, m.came, m.position = bytes[numbers[itemPayload]:], receivedAs(bytes), at
}
