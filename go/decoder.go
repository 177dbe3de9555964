package pendratsoa

import (
	"bytes"
	"encoding/binary"
	"errors"
	"fmt"
	"io"
	"math"
)

// The errors of readers that are none.
var (
	// ErrBadReadCount: a reader returned a count that is negative or greater than the room that it was given.
	ErrBadReadCount = errors.New("pendratsoa: the reader returned an impossible count")
	// ErrNilReader: the reader of a decoder is nil.
	ErrNilReader = errors.New("pendratsoa: the reader is nil")
)

// How many bytes a block has room for at least, how often in a row a reader may return nothing, and how many items are
// looked for at once, since a call of C costs more than finding one.
const (
	blockSize      = 32 << 10
	mostEmptyReads = 100
	mostItems      = 64
)

// A Decoder reads the items of a stream from a reader.
//
// It reads into blocks of memory and never writes again what it has read: the payload of an item is a part of a block,
// which is the caller's to keep or to change, and keeps its block in memory. Only an item that crosses the end of a
// block is copied into the next. Items are the caller's too. Messages that were read at once are one allocation, so
// each of them keeps the others in memory.
//
// NewDecoder makes one. Several goroutines may use it only one at a time, and the items that it returned at once.
type Decoder struct {
	reader  io.Reader
	version int
	// found has the numbers of the items that the rest begins with; count is how many were found, and taken how many of
	// them Next returned
	found        [mostItems][itemNumbers]uint64
	count, taken int
	// messages has room for those of them that are messages and were not returned
	messages []Message
	// rest is what was read and is in no item yet; up to its capacity goes the room for more
	rest []byte
	// readErr is what the reader returned with the last bytes
	readErr error
	// limit is the greatest size of a payload that is taken, if hasLimit
	limit    uint32
	hasLimit bool
	// numbering reads the payloads, unless it is nil
	numbering *Numbering
	// isLenient says that the end of the stream within an item is io.EOF
	isLenient bool
	// offset is how many bytes are in the items that Next returned; ended is the error that ended the stream
	offset int64
	ended  error
}

// A MessageTooLongError is the error of a message whose payload is larger than the limit of its decoder.
type MessageTooLongError struct {
	// Code is that of its type, and Type its name, as "SetStateCommand", which is empty if no type has the code.
	Code uint16
	Type string
	// Length is the size of its payload by its header, Limit the greatest that is taken, and Offset where its header
	// begins in the stream.
	Length, Limit uint32
	Offset        int64
}

// Error returns a text as "pendratsoa: a message of type SetStateCommand (0x0403) at offset 0 has 10 bytes, more than
// the limit of 9".
func (e *MessageTooLongError) Error() string {
	named := fmt.Sprintf("%#04x", e.Code)
	if e.Type != "" {
		named = fmt.Sprintf("%s (%#04x)", e.Type, e.Code)
	}
	return fmt.Sprintf("pendratsoa: a message of type %s at offset %d has %d bytes, more than the limit of %d", named,
		e.Offset, e.Length, e.Limit)
}

// Unwrap returns ErrTooLong.
func (e *MessageTooLongError) Unwrap() error {
	return ErrTooLong
}

// SetMaxMessageSize sets the greatest size of a payload that Next returns, in bytes; without it there is no limit. The
// eight bytes of a header do not count for it. For a larger message the error is a *MessageTooLongError as soon as its
// header was read, and of each call from then on. Trailing has what was read of it and after it.
func (d *Decoder) SetMaxMessageSize(size uint32) {
	d.limit, d.hasLimit = size, true
	// what was found may be larger
	d.count, d.taken = 0, 0
}

// SetNumbering says that the payloads of the stream are at the field numbers of a descriptor set; nil says that they
// are not. The payload of each message that Next returns is read by the numbering, so that everything of the message
// works. Its Offset and its Bytes are those of the stream, which the limit is on too. A payload that cannot be read is
// ErrMalformed, in a *MessageError, and the next call goes on after its message.
func (d *Decoder) SetNumbering(numbering *Numbering) {
	d.numbering = numbering
}

// SetStrict sets whether the end of a stream within an item is an *IncompleteError, which it is without this call. If
// not, Next returns io.EOF there after all whole items, which suits a file that is still being written. Trailing has
// the bytes of that item, and the next call continues with them.
func (d *Decoder) SetStrict(strict bool) {
	d.isLenient = !strict
}

// NewDecoder returns a decoder of the stream of a version that comes from a reader, which it reads in blocks. For an
// unknown version, Next returns ErrUnknown.
func NewDecoder(reader io.Reader, version int) *Decoder {
	return &Decoder{reader: reader, version: version}
}

// Next returns the next item, and reads only if no whole one is there. At the end of the stream the error is io.EOF. If
// the last item is not whole, it is an *IncompleteError, which wraps io.ErrUnexpectedEOF: errors.Is finds that one.
// SetStrict makes it io.EOF too. An error of the reader is returned as it is, after all items before it.
//
// None of these loses anything: the next call continues where the stream ended, since a reader may have more by then. A
// *MessageTooLongError ends the stream, and is the error of each later call.
func (d *Decoder) Next() (Item, error) {
	for {
		item, missing, err := d.take()
		if item != nil || err != nil {
			return item, err
		}
		if err := d.read(missing); err == io.EOF && len(d.rest) > 0 && !d.isLenient {
			return nil, d.incomplete()
		} else if err != nil {
			return nil, err
		}
	}
}

// All returns the items that are to come, for a loop: in Go 1.23 and later
//
//	for item, err := range decoder.All() {
//
// and before that by a call with the function that takes them, which returns whether it takes more. The loop ends at
// the end of the stream, and after an error, which comes without an item: an *IncompleteError if the last item is not
// whole.
func (d *Decoder) All() func(yield func(item Item, err error) bool) {
	return func(yield func(item Item, err error) bool) {
		for {
			item, err := d.Next()
			if err == io.EOF || !yield(item, err) || err != nil {
				return
			}
		}
	}
}

// Rest returns the number of bytes that were read and are in no item that Next returned.
func (d *Decoder) Rest() int {
	return len(d.rest)
}

// Trailing returns the bytes that were read and are in no item that Next returned. After an *IncompleteError they are
// what came of the last item, and a proxy passes them on after the items before it. After a *MessageTooLongError they
// begin with the header of that message. They are a part of the decoder's block, without a copy. Do not change them if
// you take further items.
func (d *Decoder) Trailing() []byte {
	return d.rest[:len(d.rest):len(d.rest)]
}

// take returns the item that the rest begins with, if it is whole, and otherwise how many bytes are missing at least.
func (d *Decoder) take() (Item, int64, error) {
	if d.ended != nil {
		return nil, 0, d.ended
	}
	if d.taken == d.count {
		missing, err := d.look()
		if missing > 0 || err != nil {
			return nil, missing, err
		}
	}
	numbers := &d.found[d.taken]
	size := numbers[itemSize]
	item, err := d.item(numbers, d.rest[:size:size])
	if err != nil {
		return nil, 0, &Error{"Decoder.Next", named(versionName, d.version), err}
	}
	if d.numbering != nil {
		item, err = d.numbering.read(item)
		if errors.Is(err, ErrOutOfMemory) {
			return nil, 0, err
		}
	}
	d.taken++
	d.rest = d.rest[size:]
	d.offset += int64(size)
	return item, 0, err
}

// item returns the item that the numbers of the library say, and that has these bytes, at the offset.
//
// Messages that were found together are one allocation. Their bytes are in one block, which each of them keeps anyway,
// so it keeps little more. Those of the next look may be in another block, and have an allocation of their own.
func (d *Decoder) item(numbers *[itemNumbers]uint64, bytes []byte) (Item, error) {
	code, at := uint16(numbers[itemCode]), positionAt(d.offset)
	switch numbers[itemKind] {
	case itemMessage:
		if len(d.messages) == 0 {
			d.messages = make([]Message, d.count-d.taken)
		}
		message := &d.messages[0]
		d.messages = d.messages[1:]
		message.receive(d.version, numbers, bytes, at)
		return message, nil
	case itemUnknownCode:
		return &UnknownCode{d.version, code, numbers[itemWord], at}, nil
	case itemSkipped:
		payload := bytes[numbers[itemPayload]:]
		return &Skipped{d.version, code, numbers[itemWord], payload, receivedAs(bytes), at}, nil
	}
	return nil, unexpected("kind of item", numbers[itemKind])
}

// look finds the items that the rest begins with, and returns how many bytes are missing at least if none is whole.
func (d *Decoder) look() (int64, error) {
	version, err := unsigned("Decoder.Next", versionName, d.version)
	if err != nil {
		return 0, err
	}
	limit := uint32(math.MaxUint32)
	if d.hasLimit {
		limit = d.limit
	}
	d.count, d.taken, d.messages = 0, 0, nil
	result := journalItems(version, limit, d.rest, d.found[:])
	if result > 0 {
		d.count = int(result)
		return 0, nil
	}
	if result == 0 {
		result = journalNextWithin(version, limit, d.rest, &d.found[0])
	}
	if result == tooLong && len(d.rest) >= headerSize {
		code, length := binary.BigEndian.Uint16(d.rest), binary.BigEndian.Uint32(d.rest[4:])
		name, _ := TypeName(code)
		d.ended = &MessageTooLongError{code, name, length, d.limit, d.offset}
		return 0, d.ended
	}
	if result < 0 {
		return 0, arguments{version: named(versionName, d.version)}.refusal("Decoder.Next", result)
	}
	return result, nil
}

// incomplete returns the error that the stream ended within the item that the rest begins.
func (d *Decoder) incomplete() error {
	found := &IncompleteError{Offset: d.offset, Rest: len(d.rest)}
	if len(d.rest) >= codeSize {
		found.Code = binary.BigEndian.Uint16(d.rest)
		found.Type, _ = TypeName(found.Code)
	}
	return found
}

// read reads at least that many more bytes, unless the reader fails.
func (d *Decoder) read(missing int64) error {
	for empty := 0; missing > 0; {
		if err := d.readErr; err != nil {
			d.readErr = nil
			return err
		}
		if empty == mostEmptyReads {
			return io.ErrNoProgress
		}
		count, err := d.readOnce()
		missing -= int64(count)
		d.readErr = err
		if count > 0 {
			empty = 0
		} else {
			empty++
		}
	}
	return nil
}

// readOnce appends to the rest what the reader returns at once. A new block is at most some more than twice as long as
// what came, so that a header that promises 4 GiB does not allocate them.
func (d *Decoder) readOnce() (int, error) {
	if d.reader == nil {
		return 0, ErrNilReader
	}
	held := len(d.rest)
	if cap(d.rest)-held < bytes.MinRead {
		block := make([]byte, held, 2*held+blockSize)
		copy(block, d.rest)
		d.rest = block
	}
	room := d.rest[held:cap(d.rest)]
	count, err := d.reader.Read(room)
	if count < 0 || count > len(room) {
		return 0, ErrBadReadCount
	}
	d.rest = d.rest[:held+count]
	return count, err
}
