package pendratsoa

import "fmt"

// An IDKind is the kind of a notification's id: CompletionID, SignalID or SignalName.
type IDKind int

// String returns the name of the kind, as "SignalName".
func (kind IDKind) String() string {
	return nameOfKind("IDKind", namesOfIDKind, int(kind))
}

// A ResultKind is the kind of a notification's result: ResultVoid, ResultValue, ResultFailure, ResultInvocationID or
// ResultStateKeys.
type ResultKind int

// String returns the name of the kind, as "ResultVoid".
func (kind ResultKind) String() string {
	return nameOfKind("ResultKind", namesOfResultKind, int(kind))
}

// A Notification is the id and the result of a notification of any type.
type Notification struct {
	// IDKind is the kind of the id.
	IDKind IDKind
	// Number is the id of a completion or the number of a signal, and 0 if the id is a signal's name.
	Number uint64
	// Name is the name of a signal, and empty if the id is a number.
	Name string
	// ResultKind is the kind of the result.
	ResultKind ResultKind
	// Result is the canonical payload of a Value, a Failure or StateKeys, or the text of an invocation id; of
	// ResultVoid it is empty.
	Result []byte
}

// ReadNotification returns the id and the result of the notification that a payload holds. ErrUnknown if the code is
// that of no notification; ErrMalformed, ErrNoID, ErrNoResult, ErrTooLong, ErrOutOfMemory.
func ReadNotification(code uint16, payload []byte) (Notification, error) {
	return readNotification("ReadNotification", code, payload)
}

// readNotification is ReadNotification for a call, which an error names.
func readNotification(call string, code uint16, payload []byte) (Notification, error) {
	var numbers [notificationNumbers]uint64
	found, result := written(len(payload), func(out []byte) int64 {
		return journalNotification(code, payload, &numbers, out)
	})
	if result < 0 {
		given := arguments{code: codeText(code), payload: bytesText("payload", payload)}
		return Notification{}, given.refusal(call, result)
	}
	notification, err := notificationOf(numbers[:], found)
	if err != nil {
		return Notification{}, &Error{call, bytesText("payload", payload), err}
	}
	return notification, nil
}

// notificationOf returns the notification that the numbers and the bytes of the library say.
func notificationOf(numbers []uint64, found []byte) (Notification, error) {
	if numbers[notificationID] > uint64(SignalName) {
		return Notification{}, unexpected("kind of id", numbers[notificationID])
	}
	if numbers[notificationResult] > uint64(ResultStateKeys) {
		return Notification{}, unexpected("kind of result", numbers[notificationResult])
	}
	nameLength := numbers[notificationNameLength]
	return Notification{
		IDKind:     IDKind(numbers[notificationID]),
		Number:     numbers[notificationNumber],
		Name:       string(found[:nameLength]),
		ResultKind: ResultKind(numbers[notificationResult]),
		Result:     found[nameLength:],
	}, nil
}

// nameOfKind returns a kind's name, or its type and number if it has none.
func nameOfKind(typeName string, names []string, kind int) string {
	if kind < 0 || kind >= len(names) {
		return fmt.Sprintf("%s(%d)", typeName, kind)
	}
	return names[kind]
}
