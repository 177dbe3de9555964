package pendratsoa

import (
	"encoding/hex"
	"errors"
	"os"
	"testing"
)

// unhex returns the bytes of hex digits.
func unhex(t testing.TB, digits string) []byte {
	t.Helper()
	data, err := hex.DecodeString(digits)
	if err != nil {
		t.Fatal(err)
	}
	return data
}

// readFile returns a file of this repository.
func readFile(t testing.TB, path string) []byte {
	t.Helper()
	data, err := os.ReadFile("../" + path)
	if err != nil {
		t.Fatal(err)
	}
	return data
}

// must returns a result, which has to come without an error.
func must[Result any](result Result, err error) func(t testing.TB) Result {
	return func(t testing.TB) Result {
		t.Helper()
		if err != nil {
			t.Fatal(err)
		}
		return result
	}
}

// wantError fails unless an error wraps another and is an Error with this text.
func wantError(t testing.TB, err, target error, text string) {
	t.Helper()
	var found *Error
	if !errors.Is(err, target) || !errors.As(err, &found) {
		t.Errorf("the error is %v, and not an Error that wraps %v", err, target)
	} else if err.Error() != text {
		t.Errorf("the text is\n%s, and not\n%s", err, text)
	}
}

// input is a message with the value "input".
const input = "040000000000000972070a05696e707574"
