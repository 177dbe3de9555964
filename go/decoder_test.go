package pendratsoa

import (
	"bytes"
	"errors"
	"fmt"
	"io"
	"math"
	"reflect"
	"runtime"
	"testing"
	"testing/iotest"
)

// all returns the items of a decoder up to its first error, and that error.
func all(decoder *Decoder) ([]Item, error) {
	var items []Item
	for {
		item, err := decoder.Next()
		if err != nil {
			return items, err
		}
		items = append(items, item)
	}
}

// steps is a reader that makes one of these reads at a time, and is at its end after them.
type steps []func(room []byte) (int, error)

func (s *steps) Read(room []byte) (int, error) {
	if len(*s) == 0 {
		return 0, io.EOF
	}
	step := (*s)[0]
	*s = (*s)[1:]
	return step(room)
}

// gives is a read that returns bytes, and an error with them.
func gives(data []byte, err error) func([]byte) (int, error) {
	return func(room []byte) (int, error) { return copy(room, data), err }
}

// returns is a read that says a count, whatever it read.
func returns(count int, err error) func([]byte) (int, error) {
	return func([]byte) (int, error) { return count, err }
}

func TestItemsHoweverTheyAreRead(t *testing.T) {
	stream := unhex(t, input+"0008000000000000"+"00058000000000050801720178"+"0400000000000014"+"0a")
	want := []Item{
		came(t, &Message{Version: 8, Code: CodeInputCommand}, input, 0),
		&UnknownCode{Version: 8, Code: 8, Word: 8 << 48, position: positionAt(17)},
		came(t, &Message{Version: 8, Code: CodeProposeRunCompletion, RequestedAck: true}, "00058000000000050801720178", 25),
	}
	readers := map[string]func(io.Reader) io.Reader{
		"whole":            func(reader io.Reader) io.Reader { return reader },
		"byte by byte":     iotest.OneByteReader,
		"half":             iotest.HalfReader,
		"end with data":    iotest.DataErrReader,
		"byte with no end": func(reader io.Reader) io.Reader { return iotest.DataErrReader(iotest.OneByteReader(reader)) },
	}
	for name, reader := range readers {
		decoder := NewDecoder(reader(bytes.NewReader(stream)), 8)
		items, err := all(decoder)
		if !errors.Is(err, io.ErrUnexpectedEOF) {
			t.Errorf("%s: the error is %v", name, err)
		}
		if !reflect.DeepEqual(items, want) {
			t.Errorf("%s: the items are %v", name, items)
		}
		if decoder.Rest() != 9 {
			t.Errorf("%s: the rest is %d", name, decoder.Rest())
		}
	}
}

// came is a message with the bytes that it came as, at an offset.
func came(t *testing.T, message *Message, digits string, offset int64) *Message {
	message.position = positionAt(offset)
	message.came = receivedAs(unhex(t, digits))
	message.Payload = message.came.bytes()[headerSize:]
	return message
}

func TestVersion9SkipsPayloads(t *testing.T) {
	decoder := NewDecoder(bytes.NewReader(unhex(t, "00080000000000020003"+"000300000000")), 9)
	items, err := all(decoder)
	data := unhex(t, "00080000000000020003")
	want := []Item{&Skipped{9, 8, 8<<48 | 2, data[8:], receivedAs(data), positionAt(0)}}
	if !reflect.DeepEqual(items, want) || !errors.Is(err, io.ErrUnexpectedEOF) || decoder.Rest() != 6 {
		t.Errorf("%v, %v, %d", items, err, decoder.Rest())
	}
}

func TestEndOfStream(t *testing.T) {
	for digits, want := range map[string]error{"": io.EOF, input: io.EOF, input[:2]: io.ErrUnexpectedEOF} {
		decoder := NewDecoder(bytes.NewReader(unhex(t, digits)), 8)
		for attempt := 0; attempt < 3; attempt++ {
			if _, err := all(decoder); !errors.Is(err, want) {
				t.Errorf("'%s' ends with %v", digits, err)
			}
		}
	}
}

func TestStreamGoesOnAfterItsEnd(t *testing.T) {
	var stream bytes.Buffer
	decoder := NewDecoder(&stream, 8)
	data := unhex(t, input)
	for _, split := range []int{1, 8, len(data) - 1} {
		stream.Write(data[:split])
		if items, err := all(decoder); len(items) != 0 || !errors.Is(err, io.ErrUnexpectedEOF) || decoder.Rest() != split {
			t.Errorf("%d bytes: %v, %v, %d", split, items, err, decoder.Rest())
		}
		stream.Write(data[split:])
		if items, err := all(decoder); len(items) != 1 || err != io.EOF || decoder.Rest() != 0 {
			t.Errorf("%d bytes and the others: %v, %v, %d", split, items, err, decoder.Rest())
		}
	}
}

func TestTrailingBytesArePassedOn(t *testing.T) {
	stream := unhex(t, input+"fc01ffff00000001ff"+"0008a5a500000000"+input)
	for end := 0; end <= len(stream); end++ {
		decoder := NewDecoder(iotest.HalfReader(bytes.NewReader(stream[:end])), 8)
		var copied []byte
		item, err := decoder.Next()
		for ; err == nil; item, err = decoder.Next() {
			copied = append(copied, item.Bytes()...)
		}
		trailing := decoder.Trailing()
		if len(trailing) != decoder.Rest() || (err == io.EOF) != (len(trailing) == 0) {
			t.Errorf("%d bytes: %v, %x, %d", end, err, trailing, decoder.Rest())
		}
		if copied = append(copied, trailing...); !bytes.Equal(copied, stream[:end]) {
			t.Errorf("%d bytes: %x", end, copied)
		}
		// what is appended goes into no room of the decoder
		_ = append(trailing, 0xff)
		if _, err := decoder.Next(); len(trailing) > 0 && !errors.Is(err, io.ErrUnexpectedEOF) {
			t.Errorf("%d bytes, then %v", end, err)
		}
		if !bytes.Equal(decoder.Trailing(), trailing) {
			t.Errorf("%d bytes, then %x", end, decoder.Trailing())
		}
	}
}

func TestErrorOfReaderComesAfterItsBytes(t *testing.T) {
	data, broken := unhex(t, input), errors.New("broken")
	for _, err := range []error{broken, io.ErrUnexpectedEOF, iotest.ErrTimeout} {
		decoder := NewDecoder(&steps{gives(data, nil), gives(data[:3], err), gives(data[3:], nil)}, 8)
		if items, found := all(decoder); len(items) != 1 || found != err || decoder.Rest() != 3 {
			t.Errorf("%v: %v, %v, %d", err, items, found, decoder.Rest())
		}
		// the next call reads on
		if items, found := all(decoder); len(items) != 1 || found != io.EOF {
			t.Errorf("%v: %v, %v", err, items, found)
		}
	}
}

func TestReadersThatAreNone(t *testing.T) {
	nothing := make(steps, 150)
	for index := range nothing {
		nothing[index] = returns(0, nil)
	}
	for name, test := range map[string]struct {
		reader io.Reader
		want   error
	}{
		"nil":           {nil, ErrNilReader},
		"nothing":       {&nothing, io.ErrNoProgress},
		"negative":      {&steps{returns(-1, nil)}, ErrBadReadCount},
		"least":         {&steps{returns(math.MinInt, io.EOF)}, ErrBadReadCount},
		"more than all": {&steps{func(room []byte) (int, error) { return len(room) + 1, nil }}, ErrBadReadCount},
		"greatest":      {&steps{returns(math.MaxInt, nil)}, ErrBadReadCount},
	} {
		decoder := NewDecoder(test.reader, 8)
		if item, err := decoder.Next(); item != nil || err != test.want || decoder.Rest() != 0 {
			t.Errorf("%s: %v, %v, %d", name, item, err, decoder.Rest())
		}
	}
}

func TestReaderThatReturnsNothingNowAndThen(t *testing.T) {
	var some steps
	for _, data := range append(must(Header(8, 0xfc01, 200))(t), make([]byte, 200)...) {
		some = append(some, returns(0, nil), gives([]byte{data}, nil))
	}
	if items, err := all(NewDecoder(&some, 8)); len(items) != 1 || err != io.EOF {
		t.Errorf("%v, %v", items, err)
	}
}

func TestUnknownVersions(t *testing.T) {
	var zero Decoder
	_, err := zero.Next()
	wantError(t, err, ErrUnknown,
		"pendratsoa: Decoder.Next: unknown protocol version 0 (5 to 9)")
	for _, version := range []int{4, 10, -1, 1<<32 + 8, 8 - 1<<32, math.MinInt, math.MaxInt} {
		if _, err := NewDecoder(bytes.NewReader(nil), version).Next(); !errors.Is(err, ErrUnknown) {
			t.Errorf("version %d: %v", version, err)
		}
	}
}

func TestPayloadsAreKept(t *testing.T) {
	var stream, want []byte
	for index := 0; index < 20_000; index++ {
		payload := []byte{byte(index), byte(index >> 8), 3}
		stream = append(stream, unhex(t, "fc01000000000003")...)
		stream = append(stream, payload...)
		want = append(want, payload...)
	}
	items, err := all(NewDecoder(bytes.NewReader(stream), 8))
	if err != io.EOF {
		t.Fatal(err)
	}
	var found []byte
	for _, item := range items {
		payload := item.(*Message).Payload
		found = append(found, payload...)
		// what is appended to a payload is not in the next
		_ = append(payload, "............"...)
	}
	if !bytes.Equal(found, want) {
		t.Error("the payloads are others")
	}
}

// Items that are found together stay as they were, whatever Next returns later, and whatever becomes of another one.
func TestItemsStayAsTheyWere(t *testing.T) {
	const count = 5 * mostItems
	var stream []byte
	for index := 0; index < count; index++ {
		if index%7 == 6 {
			stream = append(stream, unhex(t, "0008000000000000")...)
		} else {
			stream = append(append(stream, unhex(t, "fc01000000000002")...), byte(index), byte(index>>8))
		}
	}
	for name, reader := range map[string]io.Reader{
		"whole":        bytes.NewReader(stream),
		"byte by byte": iotest.OneByteReader(bytes.NewReader(stream)),
	} {
		items, err := all(NewDecoder(reader, 8))
		if len(items) != count || err != io.EOF {
			t.Fatalf("%s: %d items, %v", name, len(items), err)
		}
		offset := int64(0)
		for index, item := range items {
			var want Item
			switch item := item.(type) {
			case *Message:
				message := &Message{Version: 8, Code: 0xfc01}
				want = came(t, message, fmt.Sprintf("fc01000000000002%02x%02x", byte(index), byte(index>>8)), offset)
				offset += int64(len(item.Bytes()))
			case *UnknownCode:
				want = &UnknownCode{Version: 8, Code: 8, Word: 8 << 48, position: positionAt(offset)}
				offset += headerSize
			}
			if !reflect.DeepEqual(item, want) {
				t.Fatalf("%s: item %d is %+v, and not %+v", name, index, item, want)
			}
			if message, isMessage := item.(*Message); isMessage {
				*message = Message{}
			}
		}
	}
}

func TestMessagesFoundTogetherAreOneAllocation(t *testing.T) {
	const count = 2000
	stream := bytes.Repeat(unhex(t, "0003000000000000"), count)
	found := testing.AllocsPerRun(10, func() {
		decoder := NewDecoder(bytes.NewReader(stream), 8)
		for i := 0; i < count; i++ {
			if _, err := decoder.Next(); err != nil {
				t.Fatal(err)
			}
		}
	})
	if found > count/20 {
		t.Errorf("%v allocations for %d messages", found, count)
	}
	// there is room for no more messages than there may be
	for _, whole := range []int{1, 2, mostItems, mostItems + 1} {
		decoder := NewDecoder(bytes.NewReader(stream[:whole*headerSize]), 8)
		must(decoder.Next())(t)
		if want := min(whole, mostItems) - 1; cap(decoder.messages) != want {
			t.Errorf("of %d messages, there is room for %d more, and not %d", whole, cap(decoder.messages), want)
		}
	}
	// what is left of it is not for the messages of another block
	first := unhex(t, "0003000000000000"+"0008000000000000"+"0008000000000000")
	decoder := NewDecoder(&steps{gives(first, nil), gives(stream[:headerSize], nil)}, 8)
	for _, want := range []int{2, 2, 2, 0} {
		if item := must(decoder.Next())(t); cap(decoder.messages) != want {
			t.Errorf("after %v there is room for %d messages, and not %d", item, cap(decoder.messages), want)
		}
	}
}

// An assertion of an item as a value is an error of the compiler, and no miss.
func TestItemsArePointers(t *testing.T) {
	item := reflect.TypeOf((*Item)(nil)).Elem()
	for _, value := range []any{Message{}, UnknownCode{}, Skipped{}} {
		if of := reflect.TypeOf(value); of.Implements(item) || !reflect.PointerTo(of).Implements(item) {
			t.Errorf("whether %v is an item", of)
		}
	}
}

func TestPayloadOfManyBlocks(t *testing.T) {
	payload := bytes.Repeat([]byte("0123456789"), 100_000)
	stream := append(must(Header(8, 0xfc01, len(payload)))(t), payload...)
	stream = append(stream, unhex(t, input)...)
	for name, reader := range map[string]io.Reader{
		"whole": bytes.NewReader(stream),
		"half":  iotest.HalfReader(bytes.NewReader(stream)),
	} {
		items, err := all(NewDecoder(reader, 8))
		if len(items) != 2 || err != io.EOF || !bytes.Equal(items[0].(*Message).Payload, payload) {
			t.Errorf("%s: %d items, %v", name, len(items), err)
		}
	}
}

func TestPromisedBytesAreNotAllocated(t *testing.T) {
	stream := unhex(t, "fc010000ffffffff"+"00")
	var before, after runtime.MemStats
	runtime.ReadMemStats(&before)
	_, err := NewDecoder(bytes.NewReader(stream), 8).Next()
	runtime.ReadMemStats(&after)
	if allocated := after.TotalAlloc - before.TotalAlloc; !errors.Is(err, io.ErrUnexpectedEOF) || allocated > 1<<20 {
		t.Errorf("%v, and %d bytes allocated", err, allocated)
	}
}

func TestItemOfLaterLibrary(t *testing.T) {
	var numbers [itemNumbers]uint64
	numbers[itemKind] = itemSkipped + 1
	if item, err := NewDecoder(nil, 8).item(&numbers, nil); item != nil || !errors.Is(err, ErrUnexpected) {
		t.Errorf("%v, %v", item, err)
	}
}

func TestMessage(t *testing.T) {
	items, err := all(NewDecoder(bytes.NewReader(readFile(t, "examples/streams/recorded")), 8))
	if len(items) != 5 || err != io.EOF {
		t.Fatal(items, err)
	}
	call := items[2].(*Message)
	if call.Type() != "CallCommand" || !call.IsCommand() || call.IsNotification() {
		t.Errorf("%s, %v, %v", call.Type(), call.IsCommand(), call.IsNotification())
	}
	if schema := must(call.Schema())(t); schema != SchemaCallCommandMessage {
		t.Errorf("the schema is %d", schema)
	}
	for _, member := range []string{`"serviceName":"Greeter"`, `"handlerName":"greet"`} {
		if json := must(call.JSON())(t); !bytes.Contains(json, []byte(member)) {
			t.Errorf("the JSON is %s", json)
		}
	}
	if canonical := must(call.Canonical())(t); !bytes.Equal(canonical, call.Payload) {
		t.Errorf("the canonical payload is %x", canonical)
	}
	frame := append(must(Header(8, call.Code, len(call.Payload)))(t), call.Payload...)
	if found := must(call.Frame(8))(t); !bytes.Equal(found, frame) {
		t.Errorf("the frame is %x", found)
	}
	_, err = call.Notification()
	wantError(t, err, ErrUnknown,
		"pendratsoa: Message.Notification: unknown code 0x040d, or not of the kind that the call is for")
}

func TestMessageOfItsVersion(t *testing.T) {
	for version, schema := range map[int]int{
		5: SchemaSuspensionMessageV6, 6: SchemaSuspensionMessageV6,
		7: SchemaSuspensionMessage, 8: SchemaSuspensionMessage, 9: SchemaSuspensionMessage,
	} {
		if found := must((&Message{Version: version, Code: CodeSuspension}).Schema())(t); found != schema {
			t.Errorf("at version %d the schema is %d", version, found)
		}
	}
	proposal := &Message{Version: 6, Code: CodeProposeRunCompletion, Payload: unhex(t, "0801720178")}
	for version, frame := range map[int]string{6: "00050000000000050801720178", 7: "00058000000000050801720178"} {
		if found := must(proposal.Frame(version))(t); !bytes.Equal(found, unhex(t, frame)) {
			t.Errorf("at version %d the frame is %x", version, found)
		}
	}
}

func TestNewMessage(t *testing.T) {
	payload := unhex(t, "0801720178")
	for version, requestedAck := range map[int]bool{6: false, 7: true} {
		want := &Message{Version: version, Code: CodeProposeRunCompletion, Payload: payload, RequestedAck: requestedAck}
		if found := must(NewMessage(version, CodeProposeRunCompletion, payload))(t); !reflect.DeepEqual(found, want) {
			t.Errorf("%+v", found)
		}
	}
	if message, err := NewMessage(8, 8, nil); !errors.Is(err, ErrUnknown) || message != nil {
		t.Errorf("%+v, %v", message, err)
	}
}

func TestMessageWithoutSchemaOrType(t *testing.T) {
	entry := &Message{Version: 8, Code: 0xfc01, Payload: []byte{0xff}}
	if entry.Type() != "CustomEntry(64513)" || entry.IsCommand() || entry.IsNotification() {
		t.Errorf("%s, %v, %v", entry.Type(), entry.IsCommand(), entry.IsNotification())
	}
	const text = ": unknown code 0xfc01, or not of the kind that the call is for"
	_, err := entry.JSON()
	wantError(t, err, ErrUnknown, "pendratsoa: Message.JSON"+text)
	_, err = entry.Canonical()
	wantError(t, err, ErrUnknown, "pendratsoa: Message.Canonical"+text)
	_, err = entry.Schema()
	wantError(t, err, ErrUnknown, "pendratsoa: Message.Schema"+text)
	none := &Message{Version: 8, Code: 8}
	if none.Type() != "" || none.String() != "code 0x0008 0" {
		t.Errorf("%q, %v", none.Type(), none)
	}
}

func TestKindsOfMessages(t *testing.T) {
	for code, want := range map[uint16][2]bool{
		0x0000: {false, false}, 0x03ff: {false, false}, 0x0400: {true, false}, 0x7fff: {true, false},
		0x8000: {false, true}, 0xfbff: {false, true}, 0xfc00: {false, false}, 0xffff: {false, false},
		CodeGetStateEphemeralCommand: {false, false}, CodeGetStateEphemeralNotification: {false, false},
	} {
		message := &Message{Version: 8, Code: code}
		if message.IsCommand() != want[0] || message.IsNotification() != want[1] {
			t.Errorf("code %#04x", code)
		}
	}
}

func TestStreamThatIsStillWritten(t *testing.T) {
	stream := unhex(t, input+input)
	var file bytes.Buffer
	decoder := NewDecoder(&file, 8)
	decoder.SetStrict(false)
	var items []Item
	for at := range stream {
		file.WriteByte(stream[at])
		found, err := all(decoder)
		if err != io.EOF || decoder.Rest() != (at+1)%(len(stream)/2) {
			t.Fatalf("after %d bytes: %v, with %d bytes left", at+1, err, decoder.Rest())
		}
		items = append(items, found...)
	}
	if len(items) != 2 {
		t.Errorf("%d items", len(items))
	}
	file.WriteByte(stream[0])
	decoder.All()(func(item Item, err error) bool {
		t.Errorf("%v, %v", item, err)
		return true
	})
	decoder.SetStrict(true)
	if _, err := decoder.Next(); !errors.Is(err, io.ErrUnexpectedEOF) || decoder.Rest() != 1 {
		t.Errorf("%v, with %d bytes left", err, decoder.Rest())
	}
}

func TestMessageTooLong(t *testing.T) {
	stream := unhex(t, input+"00000000ffffffff"+"010203")
	whole := len(unhex(t, input))
	limit := uint32(whole - headerSize)
	for _, read := range []func(io.Reader) io.Reader{iotest.OneByteReader, iotest.DataErrReader} {
		decoder := NewDecoder(read(bytes.NewReader(stream)), 8)
		decoder.SetMaxMessageSize(limit)
		items, err := all(decoder)
		if len(items) != 1 {
			t.Errorf("%d items", len(items))
		}
		for i := 0; i < 2; i++ {
			var long *MessageTooLongError
			wanted := MessageTooLongError{0, "Start", math.MaxUint32, limit, int64(whole)}
			if !errors.As(err, &long) || *long != wanted {
				t.Errorf("the error is %v", err)
			}
			trailing := decoder.Trailing()
			if len(trailing) < headerSize || len(trailing) != decoder.Rest() || !bytes.HasPrefix(stream[whole:], trailing) {
				t.Errorf("%d bytes left, %x", decoder.Rest(), trailing)
			}
			_, err = decoder.Next()
		}
		text := "pendratsoa: a message of type Start (0x0000) at offset %d has 4294967295 bytes, more than the limit of %d"
		if err.Error() != fmt.Sprintf(text, whole, limit) || !errors.Is(err, ErrTooLong) {
			t.Errorf("the error is %v", err)
		}
	}
	decoder := NewDecoder(bytes.NewReader(stream), 8)
	decoder.SetMaxMessageSize(limit - 1)
	if items, err := all(decoder); len(items) != 0 || !errors.Is(err, ErrTooLong) {
		t.Errorf("%v, %v", items, err)
	}
	decoder.All()(func(item Item, err error) bool {
		if item != nil || !errors.Is(err, ErrTooLong) {
			t.Errorf("%v, %v", item, err)
		}
		return true
	})
}
