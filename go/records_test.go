package pendratsoa

import (
	"bytes"
	"encoding"
	"errors"
	"io"
	"math"
	"reflect"
	"strings"
	"sync"
	"testing"
)

var (
	_ encoding.BinaryMarshaler   = (*SetStateCommandMessage)(nil)
	_ encoding.BinaryUnmarshaler = (*SetStateCommandMessage)(nil)
)

func TestRecordsOfAStream(t *testing.T) {
	decoder := NewDecoder(bytes.NewReader(readFile(t, "examples/streams/recorded")), 8)
	found := map[string]bool{}
	for {
		item, err := decoder.Next()
		if err == io.EOF {
			break
		}
		message := item.(*Message)
		record := must(message.Record())(t)
		found[reflect.TypeOf(record).Elem().Name()] = true
		switch record := record.(type) {
		case *SetStateCommandMessage:
			if string(record.Key) != "counter" || string(record.Value.Content) != "1" || record.Name != "" {
				t.Errorf("%+v", record)
			}
			record.Value = &Value{Content: []byte("2")}
			frame := must(record.Frame(8))(t)
			if want := bytes.Replace(message.Bytes(), []byte("1"), []byte("2"), 1); !bytes.Equal(frame, want) {
				t.Errorf("%x, and not %x", frame, want)
			}
		case *CallCompletionNotificationMessage:
			value, ok := record.Result.(*Value)
			if !ok || string(value.Content) != "hi" || record.CompletionID != 2 {
				t.Errorf("%+v", record)
			}
		}
		made := must(NewMessageOf(8, record.(MessageRecord)))(t)
		if made.Code != message.Code || made.Type() != message.Type() || made.RequestedAck != message.RequestedAck {
			t.Errorf("%v", made)
		}
	}
	if len(found) != 5 {
		t.Errorf("%v", found)
	}
}

func TestPresence(t *testing.T) {
	zero, empty := uint32(0), ""
	record := &ErrorMessage{RelatedCommandIndex: &zero, RelatedCommandName: &empty, Behavior: -5}
	payload := must(record.MarshalBinary())(t)
	var found ErrorMessage
	if err := found.UnmarshalBinary(payload); err != nil || !reflect.DeepEqual(&found, record) {
		t.Errorf("%+v, %v", found, err)
	}
	if payload := must(new(ErrorMessage).MarshalBinary())(t); len(payload) != 0 {
		t.Errorf("%x", payload)
	}
	for _, signal := range []SignalNotificationMessageSignalID{
		nil, SignalNotificationMessageIdx(0), SignalNotificationMessageName(""),
	} {
		record := &SignalNotificationMessage{SignalID: signal, Result: &Void{}}
		var found SignalNotificationMessage
		if err := found.UnmarshalBinary(must(record.MarshalBinary())(t)); err != nil || !reflect.DeepEqual(&found, record) {
			t.Errorf("%+v, %v", found, err)
		}
	}
}

func TestFieldsThatCannotBeEncoded(t *testing.T) {
	deep := Future{}
	for level := 0; level < 101; level++ {
		deep = Future{NestedFutures: []Future{{}, deep}}
	}
	for path, record := range map[string]Record{
		"headers[2].key":    &InputCommandMessage{Headers: []HeaderRecord{{}, {}, {Key: "\xff"}}},
		"failure.message":   &OutputCommandMessage{Result: &Failure{Message: "\xff"}},
		"nested_futures[1]": &deep,
	} {
		_, err := record.MarshalBinary()
		var found *FieldError
		if !errors.As(err, &found) || !errors.Is(err, ErrField) {
			t.Errorf("%s: %v", path, err)
		} else if found.Path != path && !strings.HasPrefix(found.Path, path+".nested_futures[1]") {
			t.Errorf("%s: %s", path, found.Path)
		}
	}
	var record Value
	if err := record.UnmarshalBinary([]byte{0x0a}); !errors.Is(err, ErrMalformed) {
		t.Errorf("%v", err)
	}
	for _, message := range []*Message{{Version: 8, Code: 8}, {Version: 4, Code: 0xfc01}} {
		if record, err := message.Record(); record != nil || !errors.Is(err, ErrUnknown) {
			t.Errorf("%v, %v", record, err)
		}
	}
	malformed := &Message{Version: 8, Code: CodeSetStateCommand, Payload: []byte{0x0a}}
	if record, err := malformed.Record(); record != nil || !errors.Is(err, ErrMalformed) {
		t.Errorf("%v, %v", record, err)
	}
	if _, err := new(SuspensionMessageV6).Frame(7); !errors.Is(err, ErrUnknown) {
		t.Errorf("%v", err)
	}
}

func TestCustomEntryHasNoRecord(t *testing.T) {
	// a state that is set, a custom entry whose payload is not a record, and the state again
	stream := unhex(t, "0403000000000003"+"0a0161"+"fc01000000000002"+"ffff"+"0403000000000003"+"0a0161")
	for version := FirstVersion; version <= LastVersion; version++ {
		decoder := NewDecoder(bytes.NewReader(stream), version)
		var states, custom int
		for {
			item, err := decoder.Next()
			if err == io.EOF {
				break
			} else if err != nil {
				t.Fatal(err)
			}
			switch record := must(item.(*Message).Record())(t).(type) {
			case *SetStateCommandMessage:
				states++
			case nil:
				custom++
			default:
				t.Errorf("%T", record)
			}
		}
		if states != 2 || custom != 1 {
			t.Errorf("version %d: %d states, %d custom entries", version, states, custom)
		}
	}
}

func TestRecordOfOneType(t *testing.T) {
	state := &Message{Version: 8, Code: CodeSetStateCommand, Payload: unhex(t, "0a0161")}
	malformed := &Message{Version: 8, Code: CodeSetStateCommand, Payload: unhex(t, "0a")}
	entry := &Message{Version: 8, Code: 0xfc01, Payload: unhex(t, "0a")}
	command, ok, err := As[*SetStateCommandMessage](state)
	if !ok || err != nil || string(command.Key) != "a" {
		t.Errorf("%v, %v, %v", command, ok, err)
	}
	if command, ok, err := As[*SetStateCommandMessage](malformed); command != nil || ok || !errors.Is(err, ErrMalformed) {
		t.Errorf("%v, %v, %v", command, ok, err)
	}
	// the payload of another type is not read
	others := []Item{malformed, entry, &UnknownCode{Version: 8, Code: 8}, &Message{Version: 4}, (*Message)(nil), nil}
	for _, item := range others {
		if found, ok, err := As[*ErrorMessage](item); found != nil || ok || err != nil {
			t.Errorf("%v: %v, %v, %v", item, found, ok, err)
		}
	}
	if record, ok, err := As[Record](state); !ok || err != nil || record.Schema() != SchemaSetStateCommandMessage {
		t.Errorf("%v, %v, %v", record, ok, err)
	}
	// a suspension has the record of its version
	for version, isEarlier := range map[int]bool{6: true, 7: false} {
		item := &Message{Version: version, Code: CodeSuspension}
		_, earlier, _ := As[*SuspensionMessageV6](item)
		_, later, _ := As[*SuspensionMessage](item)
		if earlier != isEarlier || later == isEarlier {
			t.Errorf("version %d: %v, %v", version, earlier, later)
		}
	}
}

func TestMoreFieldsThanTheFirstRoom(t *testing.T) {
	for _, count := range []int{fieldRoom - 1, fieldRoom, fieldRoom + 1, 10000} {
		record := &StateKeys{Keys: make([][]byte, count)}
		for i := range record.Keys {
			record.Keys[i] = []byte{byte(i)}
		}
		payload := must(record.MarshalBinary())(t)
		var found StateKeys
		if err := found.UnmarshalBinary(payload); err != nil || !reflect.DeepEqual(&found, record) {
			t.Errorf("%d of %d, %v", len(found.Keys), count, err)
		}
	}
}

func TestRecordsOfEachLength(t *testing.T) {
	for _, length := range []int{0, 1, 480, 481, 503, 504, 512, 513, 70000} {
		for _, name := range []string{"", "input"} {
			// 64 headers are the most whose texts C has on its stack
			for _, count := range []int{0, 1, 9, 10, 11, 40, 63, 64, 65, 2000} {
				input := &InputCommandMessage{Name: name, Value: &Value{}}
				for len(input.Headers) < count {
					input.Headers = append(input.Headers, HeaderRecord{Key: "a"})
				}
				if length > 0 {
					input.Value.Content = bytes.Repeat([]byte("x"), length)
				}
				payload := must(input.MarshalBinary())(t)
				again := new(InputCommandMessage)
				if err := again.UnmarshalBinary(payload); err != nil || !reflect.DeepEqual(again, input) {
					t.Errorf("%d bytes, %d headers: %v, %v", length, count, again, err)
				}
				frame := must(input.Frame(8))(t)
				if want := must(Frame(8, CodeInputCommand, payload))(t); !bytes.Equal(frame, want) {
					t.Errorf("%x, and not %x", frame, want)
				}
			}
		}
	}
}

func TestRecordsAreAppended(t *testing.T) {
	key := "a"
	large := bytes.Repeat([]byte("x"), 1<<20)
	for _, record := range []interface {
		Record
		AppendFrame(dst []byte, version int) ([]byte, error)
	}{
		&EndMessage{},
		&ProposeRunCompletionAckMessage{CompletionID: 1},
		// more than the room that is guessed
		&ProposeRunCompletionAckMessage{CompletionID: math.MaxUint32},
		&CallCompletionNotificationMessage{CompletionID: math.MaxUint32, Result: &Failure{Code: math.MaxUint32}},
		&SetStateCommandMessage{Key: []byte("counter"), Value: &Value{Content: []byte("1")}},
		&SetStateCommandMessage{Key: []byte("counter"), Value: &Value{Content: large}},
		&CallCommandMessage{IdempotencyKey: &key, Headers: []HeaderRecord{{Key: "k", Value: "v"}, {}}},
		&CallCompletionNotificationMessage{Result: &Failure{Metadata: []FailureMetadata{{Value: "v"}}}},
		&AwaitingOnMessage{AwaitingOn: &Future{WaitingCompletions: []uint32{1, 2}, NestedFutures: make([]Future, 2)}},
		&SuspensionMessage{AwaitingOn: &Future{WaitingNamedSignals: []string{"a"}}},
	} {
		payload, frame := must(record.MarshalBinary())(t), must(record.AppendFrame(nil, 8))(t)
		for wanted, encode := range map[*[]byte]func(dst []byte) ([]byte, error){
			&payload: record.AppendBinary,
			&frame:   func(dst []byte) ([]byte, error) { return record.AppendFrame(dst, 8) },
		} {
			for _, room := range []int{0, 1, 7, 8, len(*wanted) / 2, len(*wanted), len(*wanted) + 1, 2 << 20} {
				dst := make([]byte, 3, 3+room)
				copy(dst, "abc")
				found := must(encode(dst))(t)
				if string(found) != "abc"+string(*wanted) || string(dst) != "abc" {
					t.Errorf("%T in room for %d: %.100x", record, room, found)
				}
				if isThere := &found[0] == &dst[0]; isThere != (room >= len(*wanted)) {
					t.Errorf("%T in room for %d: where it was: %v", record, room, isThere)
				}
			}
		}
	}
}

func TestNothingIsAllocatedWhereThereIsRoom(t *testing.T) {
	key, room := "a", make([]byte, 0, 512)
	set := &SetStateCommandMessage{Key: []byte("counter"), Value: &Value{Content: []byte("1")}}
	call := &CallCommandMessage{IdempotencyKey: &key, Headers: []HeaderRecord{{Key: "k", Value: "v"}}}
	completion := &CallCompletionNotificationMessage{Result: &Failure{Message: "none"}}
	for name, encode := range map[string]func() ([]byte, error){
		"set":              func() ([]byte, error) { return set.AppendBinary(room) },
		"call":             func() ([]byte, error) { return call.AppendBinary(room) },
		"completion":       func() ([]byte, error) { return completion.AppendBinary(room) },
		"set, frame":       func() ([]byte, error) { return set.AppendFrame(room, 8) },
		"call, frame":      func() ([]byte, error) { return call.AppendFrame(room, 8) },
		"what holds a set": func() ([]byte, error) { return Record(set).AppendBinary(room) },
	} {
		// with the race detector a pool forgets some of what it keeps, so the least counts
		least := math.Inf(1)
		for i := 0; i < 100; i++ {
			least = math.Min(least, testing.AllocsPerRun(1, func() {
				if _, err := encode(); err != nil {
					t.Error(err)
				}
			}))
		}
		if least > 0 {
			t.Errorf("%s: %v", name, least)
		}
	}
}

func TestErrorsLeaveTheSliceAsItWas(t *testing.T) {
	dst := make([]byte, 3, 100)
	set := &SetStateCommandMessage{Name: "\xff"}
	input := &InputCommandMessage{Headers: []HeaderRecord{{}, {Value: "\xff"}}}
	future := &SuspensionMessage{AwaitingOn: &Future{WaitingNamedSignals: []string{"\xff"}}}
	for path, encode := range map[string]func() ([]byte, error){
		"name":             func() ([]byte, error) { return set.AppendBinary(dst) },
		"headers[1].value": func() ([]byte, error) { return input.AppendFrame(dst, 8) },
		"awaiting_on.waiting_named_signals[0]": func() ([]byte, error) {
			return future.AppendFrame(dst, 8)
		},
	} {
		found, err := encode()
		var field *FieldError
		if !errors.As(err, &field) || field.Path != path || field.Reason != "not UTF-8" || len(found) != 3 {
			t.Errorf("%s: %v, %x", path, err, found)
		}
	}
	for version, text := range map[int]string{
		4:  "pendratsoa: SetStateCommandMessage.AppendFrame: unknown protocol version 4 (5 to 9)",
		-1: "pendratsoa: SetStateCommandMessage.AppendFrame: unknown protocol version -1 (5 to 9)",
	} {
		found, err := new(SetStateCommandMessage).AppendFrame(dst, version)
		if len(found) != 3 {
			t.Errorf("%x", found)
		}
		wantError(t, err, ErrUnknown, text)
	}
}

func TestMembersThatAreNil(t *testing.T) {
	for _, record := range []Record{
		&CallCompletionNotificationMessage{Result: (*Value)(nil)},
		&CallCompletionNotificationMessage{Result: (*Failure)(nil)},
		&GetLazyStateCompletionNotificationMessage{Result: (*Void)(nil)},
	} {
		payload := must(record.MarshalBinary())(t)
		if found := newRecord(record.Schema()); found.UnmarshalBinary(payload) != nil || len(payload) != 2 {
			t.Errorf("%T: %x", record, payload)
		}
	}
}

func TestGoroutinesThatEncode(t *testing.T) {
	record := &InputCommandMessage{Value: &Value{Content: []byte("input")}}
	for i := 0; i < 20; i++ {
		record.Headers = append(record.Headers, HeaderRecord{Key: strings.Repeat("k", i), Value: "v"})
	}
	want := must(record.Frame(8))(t)
	var group sync.WaitGroup
	for index := 0; index < 8; index++ {
		group.Add(1)
		go func() {
			defer group.Done()
			var dst []byte
			for call := 0; call < 500; call++ {
				var err error
				if dst, err = record.AppendFrame(dst[:0], 8); err != nil || !bytes.Equal(dst, want) {
					t.Errorf("%x, %v", dst, err)
					return
				}
			}
		}()
	}
	group.Wait()
}

func TestTextsAreCopies(t *testing.T) {
	empty, name := "", "\u00e4"
	record := &CallCommandMessage{
		IdempotencyKey: &empty, HandlerName: "greet", Name: name, Parameter: []byte("hello"),
		Headers: []HeaderRecord{{Value: "v"}, {Key: "k"}},
	}
	payload := must(record.MarshalBinary())(t)
	var found CallCommandMessage
	if err := found.UnmarshalBinary(payload); err != nil || !reflect.DeepEqual(&found, record) {
		t.Fatalf("%+v, %v", found, err)
	}
	// bytes are parts of the payload, texts are not
	for i := range payload {
		payload[i] = 'x'
	}
	record.Parameter = []byte("xxxxx")
	if !reflect.DeepEqual(&found, record) {
		t.Errorf("%+v", found)
	}
	// the next record has texts of its own
	var next Failure
	err := next.UnmarshalBinary([]byte{0x12, 0x81, 0, 'm'})
	if err != nil || next.Message != "m" || found.HandlerName != "greet" {
		t.Errorf("%+v, %v", next, err)
	}
}

func TestAPayloadInAnotherEncoding(t *testing.T) {
	var found SuspensionMessageV6
	err := found.UnmarshalBinary([]byte{0x08, 1, 0x0a, 2, 2, 3, 0x08, 4})
	if want := []uint32{1, 2, 3, 4}; err != nil || !reflect.DeepEqual(found.WaitingCompletions, want) {
		t.Errorf("%+v, %v", found, err)
	}
}

func BenchmarkDecode(b *testing.B) {
	payload := []byte("\x0a\x07counter\x1a\x03\x0a\x011")
	for i := 0; i < b.N; i++ {
		var record SetStateCommandMessage
		if err := record.UnmarshalBinary(payload); err != nil {
			b.Fatal(err)
		}
	}
}

func BenchmarkAppend(b *testing.B) {
	record := &SetStateCommandMessage{Key: []byte("counter"), Value: &Value{Content: []byte("1")}}
	b.ReportAllocs()
	var dst []byte
	for i := 0; i < b.N; i++ {
		var err error
		if dst, err = record.AppendBinary(dst[:0]); err != nil {
			b.Fatal(err)
		}
	}
}

func BenchmarkEncode(b *testing.B) {
	record := &SetStateCommandMessage{Key: []byte("counter"), Value: &Value{Content: []byte("1")}}
	b.ReportAllocs()
	for i := 0; i < b.N; i++ {
		if _, err := record.MarshalBinary(); err != nil {
			b.Fatal(err)
		}
	}
}
