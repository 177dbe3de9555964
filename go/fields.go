package pendratsoa

import (
	"encoding"
	"encoding/binary"
	"errors"
	"fmt"
	"strings"
	"sync"
)

// ErrField is the error that a field of a record cannot be encoded. A FieldError wraps it.
var ErrField = errors.New("a field that cannot be encoded")

// A FieldError tells why a field of a record cannot be encoded. It wraps ErrField.
type FieldError struct {
	// Path leads to the field, as "headers[2].key".
	Path string
	// Reason is why, as "not UTF-8".
	Reason string
}

// Error returns a text as "pendratsoa: field headers[2].key: not UTF-8".
func (e *FieldError) Error() string {
	return "pendratsoa: field " + e.Path + ": " + e.Reason
}

// Unwrap returns ErrField.
func (e *FieldError) Unwrap() error {
	return ErrField
}

// A Record is what a payload means: a pointer to one of the structs as SetStateCommandMessage.
type Record interface {
	encoding.BinaryMarshaler
	encoding.BinaryUnmarshaler
	// AppendBinary appends the canonical payload to a slice, as append does.
	AppendBinary(dst []byte) ([]byte, error)
	// Schema returns the number of its schema.
	Schema() int
	read(table *fieldTable, level uint64) error
	write(writer *fieldWriter, level uint64)
}

// A MessageRecord is the record of a message, whose type follows from the record.
type MessageRecord interface {
	Record
	// Frame returns the message as a frame of a version: its header, and its canonical payload.
	Frame(version int) ([]byte, error)
	// AppendFrame appends the frame that Frame returns to a slice, as append does.
	AppendFrame(dst []byte, version int) ([]byte, error)
	// appendFrame is AppendFrame for a call, which an error names
	appendFrame(call string, dst []byte, version int) ([]byte, error)
}

// Record returns what the payload means: a pointer to a struct as SetStateCommandMessage, for a type switch. A custom
// entry has no record: nil, without an error. Bytes of it may be parts of the payload, which are not to be written
// into. The errors are those of Schema and Canonical; one of the payload is a *MessageError. The function As returns
// the record of one type.
func (m *Message) Record() (Record, error) {
	schema, err := schemaOf("Message.Record", m.Version, m.Code)
	if err != nil {
		// what has a header and no schema is a custom entry
		if _, headerErr := Header(m.Version, m.Code, 0); headerErr == nil {
			return nil, nil
		}
		return nil, err
	}
	record := newRecord(schema)
	if record == nil {
		return nil, &Error{"Message.Record", named("schema", schema), unexpected("schema", int64(schema))}
	}
	if err := readRecord("Message.Record", record, m.Payload); err != nil {
		return nil, m.located(err)
	}
	return record, nil
}

// As returns the record of an item, and true, if it is a message of the type of that record, as in
// As[*SetStateCommandMessage](item); of any other item false, and no error: its payload is not read. Bytes of the
// record may be parts of the payload, which are not to be written into. The errors are those of Canonical; one of the
// payload is a *MessageError.
func As[R Record](item Item) (record R, ok bool, err error) {
	message, isMessage := item.(*Message)
	if !isMessage || message == nil {
		return record, false, nil
	}
	schema, err := message.Schema()
	if err != nil || any(record) != nil && record.Schema() != schema {
		// of another type, or a custom entry, which has no schema
		return record, false, nil
	}
	found, ok := newRecord(schema).(R)
	if !ok {
		return record, false, nil
	}
	if err := readRecord("As", found, message.Payload); err != nil {
		return record, false, message.located(err)
	}
	return found, true, nil
}

// NewMessageOf returns the message of a record at a version, whose type follows from the record. It requests an
// acknowledgement if the header of its type does at this version. The errors are those of the record's Frame.
func NewMessageOf(version int, record MessageRecord) (*Message, error) {
	frame, err := record.appendFrame("NewMessageOf", nil, version)
	if err != nil {
		return nil, err
	}
	return &Message{
		Version: version, Code: binary.BigEndian.Uint16(frame), Payload: frame[headerSize:len(frame):len(frame)],
		// the flag is the high bit of the third byte
		RequestedAck: frame[2]&0x80 != 0,
	}, nil
}

// A tableField is an entry of the table of fields, as the library has it.
type tableField = [fieldNumbers]uint64

// How many entries there is room for at first.
const fieldRoom = 64

// A fieldName is what an error says of a field: its name, whether it is repeated, and the schema of what it holds.
type fieldName struct {
	name       string
	isRepeated bool
	schema     int
}

// A fieldTable is the entries of a payload, which are read one by one.
type fieldTable struct {
	// call is what errors name
	call    string
	fields  []tableField
	at      int
	payload []byte
	// texts has all texts of the record, which are parts of it
	texts strings.Builder
	// room is what most tables fit into
	room [fieldRoom]tableField
}

// has returns whether the next entry is of a level.
func (t *fieldTable) has(level uint64) bool {
	return t.at < len(t.fields) && t.fields[t.at][fieldLevel] == level
}

// next returns the next entry.
func (t *fieldTable) next() *tableField {
	t.at++
	return &t.fields[t.at-1]
}

func (t *fieldTable) bytes(field *tableField) []byte {
	begin := field[fieldOffset]
	end := begin + field[fieldLength]
	return t.payload[begin:end:end]
}

func (t *fieldTable) text(field *tableField) string {
	if field[fieldLength] == 0 {
		return ""
	}
	begin := t.texts.Len()
	if begin == 0 {
		t.texts.Grow(t.textsToCome())
	}
	t.texts.Write(t.bytes(field))
	return t.texts.String()[begin:]
}

// textsToCome returns how many bytes the texts have from the last entry on.
func (t *fieldTable) textsToCome() int {
	length := uint64(0)
	for i := t.at - 1; i < len(t.fields); i++ {
		if t.fields[i][fieldKind] == kindOfFieldString {
			length += t.fields[i][fieldLength]
		}
	}
	return int(length)
}

// unknown returns the error that a later library knows more fields.
func (t *fieldTable) unknown(record string, field *tableField) error {
	what := fmt.Sprintf("field %d of %s", field[fieldNumber], record)
	return &Error{t.call, what, unexpectedText("the " + what)}
}

var tables = sync.Pool{New: func() any { return new(fieldTable) }}

// readRecord reads a record from a payload, for a call, which an error names.
func readRecord(call string, record Record, payload []byte) error {
	table := tables.Get().(*fieldTable)
	table.call = call
	err := table.find(record.Schema(), payload)
	if err == nil {
		err = record.read(table, 0)
	}
	// nothing of the record is kept
	table.fields, table.at, table.payload = nil, 0, nil
	table.texts.Reset()
	tables.Put(table)
	return err
}

// find finds the entries of a payload, or of its canonical encoding.
func (t *fieldTable) find(schema int, payload []byte) error {
	fields := t.room[:]
	count := journalFields(uint32(schema), payload, fields)
	if count == notCanonical {
		canonical, err := canonicalOf(t.call, schema, payload)
		if err != nil {
			return err
		}
		payload = canonical
		count = journalFields(uint32(schema), payload, fields)
	}
	if count > int64(len(fields)) {
		fields = make([]tableField, count)
		count = journalFields(uint32(schema), payload, fields)
	}
	if count < 0 {
		return schemaError(t.call, count, schema, bytesText("payload", payload))
	}
	t.fields, t.payload = fields[:count], payload
	return nil
}

// How many entries, and how many bytes next to them, a writer has room for at first.
const (
	writerFields = 32
	writerBytes  = 512
)

// A fieldWriter is the table of a record, and the bytes that its entries are places in. Both are used up to a count, so
// that no pointer is written for an entry.
type fieldWriter struct {
	fields []tableField
	count  int
	data   []byte
	length int
	// writing is what the library writes: why there is no payload, and the index of the entry
	writing [writingNumbers]uint64
}

// hasRoom returns whether there is room for an entry, and for this many bytes.
func (w *fieldWriter) hasRoom(length int) bool {
	return w.count < len(w.fields) && length <= len(w.data)-w.length
}

// grow makes room for them.
func (w *fieldWriter) grow(length int) {
	if w.count == len(w.fields) {
		w.fields = append(w.fields, make([]tableField, len(w.fields))...)
	}
	if length > len(w.data)-w.length {
		w.data = append(w.data, make([]byte, len(w.data)+length)...)
	}
}

func (w *fieldWriter) number(level, number, kind, value uint64) {
	if !w.hasRoom(0) {
		w.numberGrown(level, number, kind, value)
		return
	}
	field := &w.fields[w.count]
	field[fieldLevel], field[fieldNumber], field[fieldKind] = level, number, kind
	field[fieldValue], field[fieldOffset], field[fieldLength] = value, 0, 0
	w.count++
}

// numberGrown is number where there is no room. It is apart, so that number has its arguments in registers.
func (w *fieldWriter) numberGrown(level, number, kind, value uint64) {
	w.grow(0)
	w.number(level, number, kind, value)
}

func (w *fieldWriter) flag(level, number uint64, isSet bool) {
	w.number(level, number, kindOfFieldBool, uint64(flag(isSet)))
}

// place returns where the bytes of an entry are written.
func (w *fieldWriter) place(level, number, kind uint64, length int) []byte {
	if !w.hasRoom(length) {
		return w.placeGrown(level, number, kind, length)
	}
	field, begin := &w.fields[w.count], w.length
	field[fieldLevel], field[fieldNumber], field[fieldKind] = level, number, kind
	field[fieldValue], field[fieldOffset], field[fieldLength] = 0, uint64(begin), uint64(length)
	w.count++
	w.length = begin + length
	return w.data[begin:w.length]
}

// placeGrown is place where there is no room.
func (w *fieldWriter) placeGrown(level, number, kind uint64, length int) []byte {
	w.grow(length)
	return w.place(level, number, kind, length)
}

func (w *fieldWriter) bytes(level, number uint64, value []byte) {
	copy(w.place(level, number, kindOfFieldBytes, len(value)), value)
}

func (w *fieldWriter) text(level, number uint64, value string) {
	copy(w.place(level, number, kindOfFieldString, len(value)), value)
}

func (w *fieldWriter) message(level, number, schema uint64) {
	w.number(level, number, kindOfFieldMessage, schema)
}

// The most bytes that are kept for the next record.
const keptBytes = 64 << 10

var writers = sync.Pool{New: func() any {
	return &fieldWriter{fields: make([]tableField, writerFields), data: make([]byte, writerBytes)}
}}

// newWriter returns a writer that has no entry.
func newWriter() *fieldWriter {
	writer := writers.Get().(*fieldWriter)
	writer.count, writer.length = 0, 0
	return writer
}

// appendTo appends the payload that the table means to where a record goes, and keeps the writer for another record.
func (w *fieldWriter) appendTo(dst []byte, to *place) ([]byte, error) {
	extended := roomFor(dst, to.header+w.length, 6*w.count)
	for {
		out := extended[len(extended):cap(extended)]
		length := journalPayloadOfFields(
			uint32(to.schema), w.fields[:w.count], w.data[:w.length], &w.writing, out[to.header:],
		)
		if length < 0 || w.writing[writingKind] != fieldsWritten {
			return dst, w.refused(to, length)
		}
		end := to.header + int(length)
		if end > len(out) {
			extended = withRoom(extended, end)
			continue
		}
		w.keep()
		if to.header > 0 {
			if err := to.writeHeader(out[:end]); err != nil {
				return dst, err
			}
		}
		return extended[:len(extended)+end], nil
	}
}

// refused returns why the table means no payload, and keeps the writer.
func (w *fieldWriter) refused(to *place, length int64) error {
	defer w.keep()
	kind := w.writing[writingKind]
	switch {
	case length < 0:
		return schemaError(to.call, length, to.schema, bytesText("payload", w.data[:w.length]))
	case kind >= uint64(len(fieldReasons)):
		return &Error{to.call, named("schema", to.schema), unexpected("kind of table", kind)}
	default:
		return &FieldError{pathOf(to.schema, w.fields[:w.writing[writingIndex]+1]), fieldReasons[kind]}
	}
}

// keep keeps the writer for another record, unless it has much.
func (w *fieldWriter) keep() {
	if len(w.data) <= keptBytes && len(w.fields) <= keptBytes/48 {
		writers.Put(w)
	}
}

// A place says where a record goes: after a header, if it is to be a frame of a version. An error names the call.
type place struct {
	call    string
	schema  int
	header  int
	version uint32
	code    uint16
}

// writeHeader writes the header of a frame.
func (to *place) writeHeader(frame []byte) error {
	result := journalHeader(to.version, to.code, uint32(len(frame)-to.header), frame[:to.header])
	if result < 0 {
		return versionAndCode(int(to.version), to.code).refusal(to.call, result)
	}
	return nil
}

// placeOfFrame returns where the record of a type goes that is to be a frame of a version.
func placeOfFrame(call string, schema, version int, code uint16) (place, error) {
	number, err := unsigned(call, versionName, version)
	return place{call, schema, headerSize, number, code}, err
}

// pathOf returns what leads to the last of these entries, as "headers[2].key".
func pathOf(schema int, fields []tableField) string {
	schemas := []int{schema}
	counts := []map[uint64]int{{}}
	var names []string
	for _, field := range fields {
		level, number := field[fieldLevel], field[fieldNumber]
		schemas, counts, names = schemas[:level+1], counts[:level+1], names[:level]
		found := fieldNames[schemas[level]][number]
		name := found.name
		if found.isRepeated {
			name = fmt.Sprintf("%s[%d]", name, counts[level][number])
			counts[level][number]++
		}
		names = append(names, name)
		if field[fieldKind] == kindOfFieldMessage {
			schemas, counts = append(schemas, found.schema), append(counts, map[uint64]int{})
		}
	}
	return strings.Join(names, ".")
}
