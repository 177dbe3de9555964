package pendratsoa

import (
	"bytes"
	"errors"
	"fmt"
	"strings"
	"testing"
)

func TestPayloadsOfJSON(t *testing.T) {
	want := unhex(t, "0805620178")
	for _, json := range []string{
		`{"wakeUpTime":"5","name":"x"}`, ` { "name" : "\u0078" , "wake_up_time" : 0.5e1 } `, `{"name":"x","wakeUpTime":5}`,
	} {
		if found := must(FromJSON(SchemaSleepCommandMessage, []byte(json)))(t); !bytes.Equal(found, want) {
			t.Errorf("the payload of %s is %x", json, found)
		}
	}
	for schema := 0; schema < Schemas; schema++ {
		if found := must(FromJSON(schema, []byte("{}")))(t); len(found) != 0 {
			t.Errorf("schema %d: %x", schema, found)
		}
	}
}

func TestJSONThatIsNotTaken(t *testing.T) {
	deep := strings.Repeat(`{"nestedFutures":[`, 102) + strings.Repeat("]}", 102)
	for _, row := range []struct {
		schema int
		json   string
		want   JSONError
		text   string
	}{
		{SchemaValue, "", JSONError{ReasonNotJSON, 0, ""}, "JSON of 0 bytes: not JSON at byte 0"},
		{SchemaValue, `{"content":x}`, JSONError{ReasonNotJSON, 11, ""}, "JSON of 13 bytes: not JSON at byte 11"},
		{SchemaValue, "{\"content\":\"\xff\"}", JSONError{ReasonNotJSON, 12, ""}, "JSON of 15 bytes: not JSON at byte 12"},
		{SchemaValue, `{"a":1}`, JSONError{ReasonUnknownMember, -1, "a"}, "JSON of 7 bytes: a: unknown member"},
		{SchemaSleepCommandMessage, `{"wakeUpTime":1,"wake_up_time":1}`,
			JSONError{ReasonRepeatedMember, -1, "wakeUpTime"}, "JSON of 33 bytes: wakeUpTime: repeated member"},
		{SchemaProposeRunCompletionMessage, `{"value":"","failure":{}}`,
			JSONError{ReasonSeveralMembers, -1, "failure"}, "JSON of 25 bytes: failure: several members of a oneof"},
		{SchemaValue, "[]", JSONError{ReasonWrongKind, -1, ""}, "JSON of 2 bytes: wrong kind of value"},
		{SchemaInputCommandMessage, `{"headers":[{},{"key":1}]}`,
			JSONError{ReasonWrongKind, -1, "headers[1].key"}, "JSON of 26 bytes: headers[1].key: wrong kind of value"},
		{SchemaSleepCommandMessage, `{"wakeUpTime":-1}`,
			JSONError{ReasonOutOfRange, -1, "wakeUpTime"}, "JSON of 17 bytes: wakeUpTime: out of range"},
		{SchemaValue, `{"content":"a"}`, JSONError{ReasonNotBase64, -1, "content"},
			"JSON of 15 bytes: content: not base64"},
	} {
		_, err := FromJSON(row.schema, []byte(row.json))
		wantError(t, err, ErrJSON, "pendratsoa: FromJSON: "+row.text)
		var found *JSONError
		if !errors.As(err, &found) || *found != row.want {
			t.Errorf("%s: %v", row.json, err)
		}
	}
	var found *JSONError
	_, err := FromJSON(SchemaFuture, []byte(deep))
	if !errors.As(err, &found) || found.Reason != ReasonTooDeep || found.Offset != -1 {
		t.Error(err)
	}
	_, err = FromJSON(Schemas, []byte("{}"))
	about := fmt.Sprintf("pendratsoa: FromJSON: unknown schema %d (0 to %d)", Schemas, Schemas-1)
	wantError(t, err, ErrUnknown, about)
	for _, kind := range []uint64{9, 1 << 63} {
		if _, err := readingOf([]uint64{kind, 0}, nil); !errors.Is(err, ErrUnexpected) {
			t.Errorf("kind %d: %v", kind, err)
		}
	}
}

func TestMessageFromJSON(t *testing.T) {
	message := must(MessageFromJSON(8, CodeProposeRunCompletion, []byte(`{"resultCompletionId":1,"value":"eA=="}`)))(t)
	if !message.RequestedAck || !bytes.Equal(message.Payload, unhex(t, "0801720178")) {
		t.Error(message)
	}
	again := must(MessageFromJSON(8, message.Code, must(message.JSON())(t)))(t)
	if !bytes.Equal(again.Payload, message.Payload) {
		t.Error(again)
	}
	for _, version := range []int{6, 8} {
		future := `{"waitingCompletions":[1]}`
		_, err := MessageFromJSON(version, CodeSuspension, []byte(future))
		if isTaken := err == nil; isTaken != (version == 6) {
			t.Errorf("version %d: %v", version, err)
		}
	}
	_, err := MessageFromJSON(8, 0xFC01, []byte("{}"))
	wantError(t, err, ErrUnknown,
		"pendratsoa: MessageFromJSON: unknown code 0xfc01, or not of the kind that the call is for")
	_, err = MessageFromJSON(4, CodeSuspension, []byte("{}"))
	wantError(t, err, ErrUnknown, "pendratsoa: MessageFromJSON: unknown protocol version 4 (5 to 9)")
}

func TestJSONErrorOfNoReason(t *testing.T) {
	for _, failed := range []*JSONError{{}, {Offset: -1}, {Offset: -1, Path: "key"}, {Reason: 9, Offset: -1}} {
		if text := failed.Error(); !strings.Contains(text, failed.Reason.String()) {
			t.Error(text)
		}
	}
}
