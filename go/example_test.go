package pendratsoa_test

import (
	"bytes"
	"errors"
	"fmt"
	"io"
	"log"
	"os"
	"strings"

	"pendratsoa.dev/pendratsoa"
)

func Example() {
	stream, err := os.Open("../examples/streams/replay")
	if err != nil {
		log.Fatal(err)
	}
	defer stream.Close()
	decoder := pendratsoa.NewDecoder(stream, 8)
	for {
		item, err := decoder.Next()
		if err == io.EOF {
			break
		} else if err != nil {
			log.Fatal(err)
		}
		fmt.Println(item)
		if message, ok := item.(*pendratsoa.Message); ok {
			json, err := message.JSON()
			fmt.Println(string(json), err)
		}
	}
	// Output:
	// Start 19
	// {"id":"a2V5","debugId":"key","knownEntries":1,"partialState":true,"key":"key"} <nil>
	// InputCommand 9
	// {"value":{"content":"aW5wdXQ="}} <nil>
	// GetLazyStateCompletionNotification 4
	// {"completionId":1,"void":{}} <nil>
}

// A stream that comes in chunks is written to a buffer; an error at its end loses nothing.
func ExampleDecoder_chunks() {
	var stream bytes.Buffer
	decoder := pendratsoa.NewDecoder(&stream, 8)
	for _, chunk := range []string{"\xfc\x01\x00\x00\x00", "\x00\x00\x05in", "put"} {
		stream.WriteString(chunk)
		item, err := decoder.Next()
		if errors.Is(err, io.ErrUnexpectedEOF) {
			fmt.Println("rest", decoder.Rest())
		} else if err == nil {
			fmt.Println(item.(*pendratsoa.Message).Type(), "rest", decoder.Rest())
		}
	}
	// Output:
	// rest 5
	// rest 10
	// CustomEntry(64513) rest 0
}

// In Go 1.23 and later the same is a loop: for item, err := range decoder.All().
func ExampleDecoder_All() {
	stream := "\x04\x05\x00\x00\x00\x00\x00\x00" + "\x00\x03\x00\x00\x00\x00\x00\x00"
	decoder := pendratsoa.NewDecoder(strings.NewReader(stream), 8)
	decoder.All()(func(item pendratsoa.Item, err error) bool {
		if err != nil {
			log.Fatal(err)
		}
		fmt.Println(item.Offset(), item)
		return true
	})
	// Output:
	// 0 ClearAllStateCommand 0
	// 8 End 0
}

// A header that announces too much is an error before its payload is read.
func ExampleDecoder_SetMaxMessageSize() {
	decoder := pendratsoa.NewDecoder(strings.NewReader("\x04\x03\x00\x00\xff\xff\xff\xff"), 8)
	decoder.SetMaxMessageSize(1 << 20)
	_, err := decoder.Next()
	var long *pendratsoa.MessageTooLongError
	if errors.As(err, &long) {
		fmt.Println(long.Type, long.Length, "of at most", long.Limit)
	}
	// Output: SetStateCommand 4294967295 of at most 1048576
}

func ExampleIncompleteError() {
	// the first three bytes of a payload of ten
	decoder := pendratsoa.NewDecoder(strings.NewReader("\x04\x03\x00\x00\x00\x00\x00\x0a\x0a\x01a"), 8)
	_, err := decoder.Next()
	var ended *pendratsoa.IncompleteError
	if errors.As(err, &ended) {
		fmt.Println(ended.Type, "at offset", ended.Offset, "of which", ended.Rest, "bytes came")
	}
	// Output: SetStateCommand at offset 0 of which 11 bytes came
}

// A record is written as a message: by NewMessageOf for a Replay, and by Frame or AppendFrame for a connection.
func ExampleNewMessageOf() {
	command := &pendratsoa.SetStateCommandMessage{Key: []byte("a"), Value: &pendratsoa.Value{Content: []byte("1")}}
	message, err := pendratsoa.NewMessageOf(8, command)
	if err != nil {
		log.Fatal(err)
	}
	frame, err := command.Frame(8)
	fmt.Println(message, err)
	fmt.Printf("%x\n", frame)
	// Output:
	// SetStateCommand 8 <nil>
	// 04030000000000080a01611a030a0131
}

func ExampleMessageFromJSON() {
	json := []byte(`{"key":"YQ==","value":{"content":"MQ=="}}`)
	message, err := pendratsoa.MessageFromJSON(8, pendratsoa.CodeSetStateCommand, json)
	if err != nil {
		log.Fatal(err)
	}
	fmt.Println(message)
	_, err = pendratsoa.MessageFromJSON(8, pendratsoa.CodeSetStateCommand, []byte(`{"key":5}`))
	var rejected *pendratsoa.JSONError
	if errors.As(err, &rejected) {
		fmt.Println(rejected.Path, rejected.Reason)
	}
	// Output:
	// SetStateCommand 8
	// key ReasonWrongKind
}

// The descriptor set is that of a .proto file in which a key has the number 4, a value 2, and its content 3.
func ExampleNumbering() {
	set := "\n~\n\aa.proto\"!\n\x05Value\x12\x18\n\acontent\x18\x03 \x01(\fR\acontent" +
		"\"H\n\x16SetStateCommandMessage\x12\x10\n\x03key\x18\x04 \x01(\fR\x03key" +
		"\x12\x1c\n\x05value\x18\x02 \x01(\v2\x06.ValueR\x05valueb\x06proto3"
	numbering, err := pendratsoa.NewNumbering([]byte(set), nil)
	if err != nil {
		log.Fatal(err)
	}
	frame, err := numbering.Frame(8, pendratsoa.CodeSetStateCommand, []byte("\x0a\x01a\x1a\x03\x0a\x011"))
	if err != nil {
		log.Fatal(err)
	}
	fmt.Printf("%x\n", frame[8:])
	decoder := pendratsoa.NewDecoder(bytes.NewReader(frame), 8)
	decoder.SetNumbering(numbering)
	item, err := decoder.Next()
	if err != nil {
		log.Fatal(err)
	}
	fmt.Printf("%x %v\n", item.(*pendratsoa.Message).Payload, bytes.Equal(item.Bytes(), frame))
	// Output:
	// 12031a0131220161
	// 0a01611a030a0131 true
}

func ExampleAs() {
	item, err := pendratsoa.NewMessage(8, pendratsoa.CodeSetStateCommand, []byte("\x0a\x01a\x1a\x03\x0a\x011"))
	if err != nil {
		log.Fatal(err)
	}
	command, ok, err := pendratsoa.As[*pendratsoa.SetStateCommandMessage](item)
	fmt.Printf("%s %s %v %v\n", command.Key, command.Value.Content, ok, err)
	_, ok, err = pendratsoa.As[*pendratsoa.SleepCommandMessage](item)
	fmt.Println(ok, err)
	// Output:
	// a 1 true <nil>
	// false <nil>
}

func ExampleMessageError() {
	// an End, and a SetStateCommand whose key ends after the payload
	stream := "\x00\x03\x00\x00\x00\x00\x00\x00" + "\x04\x03\x00\x00\x00\x00\x00\x03\x0a\x05a"
	decoder := pendratsoa.NewDecoder(strings.NewReader(stream), 8)
	for {
		item, err := decoder.Next()
		if err == io.EOF {
			break
		} else if err != nil {
			log.Fatal(err)
		}
		_, _, err = pendratsoa.As[*pendratsoa.SetStateCommandMessage](item)
		var of *pendratsoa.MessageError
		if errors.As(err, &of) {
			fmt.Println(of.Type, of.Offset, errors.Is(err, pendratsoa.ErrMalformed))
		}
	}
	// Output: SetStateCommand 8 true
}

func ExampleFrame() {
	frame, err := pendratsoa.Frame(8, pendratsoa.CodeInputCommand, []byte("r\x07\n\x05input"))
	fmt.Printf("%x %v\n", frame, err)
	// Output: 040000000000000972070a05696e707574 <nil>
}

func ExampleCanonical() {
	// a list of numbers, partly one by one, is one list in the canonical payload
	payload := []byte{0x08, 0x01, 0x0a, 0x02, 0x02, 0x03, 0x08, 0x04}
	canonical, err := pendratsoa.Canonical(pendratsoa.SchemaSuspensionMessageV6, payload)
	fmt.Printf("%x %v\n", canonical, err)
	_, err = pendratsoa.Canonical(pendratsoa.SchemaSuspensionMessageV6, payload[:len(payload)-1])
	fmt.Println(errors.Is(err, pendratsoa.ErrMalformed))
	// Output:
	// 0a0401020304 <nil>
	// true
}

func ExampleReadNotification() {
	payload := []byte("\x1a\x04stop\x22\x00")
	notification, err := pendratsoa.ReadNotification(pendratsoa.CodeSignalNotification, payload)
	fmt.Println(notification.IDKind, notification.Name, notification.ResultKind, err)
	// Output: SignalName stop ResultVoid <nil>
}

func ExampleDifference() {
	first, second := []byte("\x0a\x01a\x1a\x03\x0a\x011"), []byte("\x0a\x01a\x1a\x03\x0a\x012")
	difference, err := pendratsoa.Difference(pendratsoa.CodeSetStateCommand, first, second)
	fmt.Printf("- Difference:%s\n%v\n", difference, err)
	// Output:
	// - Difference:
	//    value: '1' != '2'
	// <nil>
}

func ExampleCompareJournals() {
	recorded, err := os.ReadFile("../examples/streams/recorded")
	if err != nil {
		log.Fatal(err)
	}
	replayed, err := os.ReadFile("../examples/streams/replayed_other_payload")
	if err != nil {
		log.Fatal(err)
	}
	for _, ignorePayloads := range []bool{false, true} {
		verdict, err := pendratsoa.CompareJournals(8, recorded, replayed, ignorePayloads)
		if err != nil {
			log.Fatal(err)
		}
		switch verdict.Kind {
		case pendratsoa.VerdictSame:
			fmt.Println("same,", verdict.Index, "commands")
		default:
			fmt.Println(verdict.Kind, "at command", verdict.Index)
		}
	}
	// Output:
	// VerdictHeaderMismatch at command 1
	// same, 4 commands
}

// A replay is checked item by item: here the value of a state is another one.
func ExampleReplay() {
	recorded, err := os.ReadFile("../examples/streams/recorded")
	if err != nil {
		log.Fatal(err)
	}
	replayed, err := os.Open("../examples/streams/replayed_other_payload")
	if err != nil {
		log.Fatal(err)
	}
	defer replayed.Close()
	replay, err := pendratsoa.NewReplay(8, recorded, pendratsoa.Ignored{})
	if err != nil {
		log.Fatal(err)
	}
	decoder := pendratsoa.NewDecoder(replayed, 8)
	for {
		item, err := decoder.Next()
		if err == io.EOF {
			break
		} else if err != nil {
			log.Fatal(err)
		}
		mismatch, err := replay.Check(item)
		if err != nil {
			log.Fatal(err)
		}
		if mismatch != nil {
			fmt.Println(mismatch.Kind, "at command", mismatch.Index, "offset", mismatch.ReplayedOffset)
			for _, field := range mismatch.Fields {
				fmt.Println(field.Name, "is", field.Replayed, "and was", field.Recorded)
			}
		}
	}
	// Output:
	// VerdictHeaderMismatch at command 1 offset 17
	// value is '2' and was '1'
}
