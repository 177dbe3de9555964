package pendratsoa

import (
	"errors"
	"reflect"
	"testing"
)

func TestCompletion(t *testing.T) {
	message := &Message{Version: 8, Code: CodeCallCompletionNotification, Payload: unhex(t, "08022a040a026869")}
	want := Notification{IDKind: CompletionID, Number: 2, ResultKind: ResultValue, Result: unhex(t, "0a026869")}
	if found := must(message.Notification())(t); !reflect.DeepEqual(found, want) {
		t.Errorf("%+v", found)
	}
}

func TestEachIDAndResult(t *testing.T) {
	ids := map[string]Notification{
		"0800":         {IDKind: CompletionID},
		"0802":         {IDKind: CompletionID, Number: 2},
		"1011":         {IDKind: SignalID, Number: 17},
		"1a00":         {IDKind: SignalName},
		"1a0361c3a9":   {IDKind: SignalName, Name: "a\u00e9"},
		"1a0473746f70": {IDKind: SignalName, Name: "stop"},
	}
	results := map[string]Notification{
		"2200":         {ResultKind: ResultVoid, Result: []byte{}},
		"2a030a0178":   {ResultKind: ResultValue, Result: unhex(t, "0a0178")},
		"3203088500":   {ResultKind: ResultFailure, Result: unhex(t, "0805")},
		"820103696e76": {ResultKind: ResultInvocationID, Result: []byte("inv")},
		"8a01030a0161": {ResultKind: ResultStateKeys, Result: unhex(t, "0a0161")},
	}
	for idDigits, id := range ids {
		for resultDigits, result := range results {
			want := id
			want.ResultKind, want.Result = result.ResultKind, result.Result
			payload := unhex(t, idDigits+resultDigits)
			if found := must(ReadNotification(CodeSignalNotification, payload))(t); !reflect.DeepEqual(found, want) {
				t.Errorf("%s%s: %+v", idDigits, resultDigits, found)
			}
		}
	}
}

func TestNotificationsThatAreNone(t *testing.T) {
	for digits, want := range map[string]error{"": ErrNoID, "2200": ErrNoID, "1011": ErrNoResult, "10": ErrMalformed} {
		found, err := ReadNotification(CodeSignalNotification, unhex(t, digits))
		if !errors.Is(err, want) || !reflect.DeepEqual(found, Notification{}) {
			t.Errorf("'%s': %+v, %v", digits, found, err)
		}
	}
	_, err := ReadNotification(CodeSignalNotification, nil)
	wantError(t, err, ErrNoID, "pendratsoa: ReadNotification: payload of 0 bytes has no id")
	_, err = ReadNotification(CodeCallCommand, nil)
	wantError(t, err, ErrUnknown,
		"pendratsoa: ReadNotification: unknown code 0x040d, or not of the kind that the call is for")
}

func TestNotificationOfLaterLibrary(t *testing.T) {
	numbers := make([]uint64, notificationNumbers)
	numbers[notificationID] = uint64(SignalName) + 1
	if _, err := notificationOf(numbers, nil); !errors.Is(err, ErrUnexpected) {
		t.Error(err)
	}
	numbers[notificationID] = uint64(SignalName)
	numbers[notificationResult] = 1<<63 + uint64(ResultValue)
	if _, err := notificationOf(numbers, nil); !errors.Is(err, ErrUnexpected) {
		t.Error(err)
	}
}
