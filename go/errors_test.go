package pendratsoa

import (
	"errors"
	"fmt"
	"regexp"
	"strconv"
	"strings"
	"testing"
)

// defined returns the numbers that the header for C defines by a pattern of their lines.
func defined(t *testing.T, pattern string) map[string]int64 {
	found := map[string]int64{}
	header := string(readFile(t, "include/pendratsoa.h"))
	for _, match := range regexp.MustCompile(pattern).FindAllStringSubmatch(header, -1) {
		found[match[1]] = must(strconv.ParseInt(match[2], 10, 64))(t)
	}
	return found
}

func TestErrorsAreThoseOfTheHeader(t *testing.T) {
	names := map[error]string{
		ErrMalformed: "MALFORMED", ErrOutOfMemory: "OUT_OF_MEMORY", ErrNoRoom: "NO_ROOM", ErrTooLong: "TOO_LONG",
		ErrUnknown: "UNKNOWN", ErrNoID: "NO_ID", ErrNoResult: "NO_RESULT",
		ErrNotCanonical: "NOT_CANONICAL",
	}
	numbers := defined(t, `(?m)^#define JOURNAL_(\w+) \((-\d+)\)$`)
	kinds := map[int64]string{}
	for name, number := range numbers {
		if number > -16 {
			kinds[number] = name
		}
	}
	for name, number := range numbers {
		// no call returns the kind of what is unknown by itself
		if err := errorOf(number); name != "UNKNOWN" && names[err] != kinds[number%16] {
			t.Errorf("%s is %v", name, err)
		}
	}
	if len(kinds) != len(names) {
		t.Errorf("the header has %d kinds of errors", len(kinds))
	}
}

func TestControlsOfANameAreEscaped(t *testing.T) {
	for letter := rune(0); letter < 0x2100; letter++ {
		shown := string(letter)
		if letter < 0x20 || letter >= 0x7f && letter < 0xa0 || letter >= 0x2028 && letter < 0x202f ||
			letter >= 0x2066 && letter < 0x206a {
			shown = fmt.Sprintf(`\u%04x`, letter)
		}
		_, err := TypeCode(string(letter))
		wantError(t, err, ErrUnknown, `pendratsoa: TypeCode: unknown type "`+shown+`"`)
	}
}

func TestErrorOfLaterLibrary(t *testing.T) {
	for _, number := range []int64{-9, -12, -1 << 63} {
		err := errorOf(number)
		text := fmt.Sprintf("the library returned the error %d, which this package does not know", number)
		if !errors.Is(err, ErrUnexpected) || err.Error() != text {
			t.Error(err)
		}
	}
}

// The texts of kinds of errors are those of the header, which says of what is unknown and too long less.
func TestTextsAreThoseOfTheHeader(t *testing.T) {
	header := string(readFile(t, "include/pendratsoa.h"))
	for name, err := range map[string]error{
		"MALFORMED": ErrMalformed, "OUT_OF_MEMORY": ErrOutOfMemory, "NO_ROOM": ErrNoRoom, "NO_ID": ErrNoID,
		"NO_RESULT": ErrNoResult, "NOT_CANONICAL": ErrNotCanonical,
	} {
		if !strings.Contains(header, fmt.Sprintf("case JOURNAL_%s:\n        return %q;\n", name, err)) {
			t.Errorf("%s is %v", name, err)
		}
	}
}

func TestKindsAreThoseOfTheHeader(t *testing.T) {
	kinds := map[string]int64{}
	for kind := CompletionID; kind <= SignalName; kind++ {
		kinds[strings.ToUpper(kind.String())] = int64(kind)
	}
	for kind := ResultVoid; kind <= ResultStateKeys; kind++ {
		kinds[strings.ToUpper(kind.String())] = int64(kind)
	}
	for kind := VerdictSame; kind <= VerdictBadReplayed; kind++ {
		kinds[strings.ToUpper(kind.String())] = int64(kind)
	}
	for reason := ReasonNotJSON; reason <= ReasonTooDeep; reason++ {
		kinds["JSON"+strings.ToUpper(strings.TrimPrefix(reason.String(), "Reason"))] = int64(reason)
	}
	numbers := map[string]int64{}
	for name, number := range defined(t, `(?m)^#define JOURNAL_(\w+) (\d+)\b`) {
		numbers[strings.ReplaceAll(name, "_", "")] = number
	}
	for name, kind := range kinds {
		if number, isThere := numbers[name]; !isThere || number != kind {
			t.Errorf("%s is %d, and in the header %d", name, kind, number)
		}
	}
	if len(kinds) != 23 {
		t.Errorf("there are %d kinds", len(kinds))
	}
	if text := fmt.Sprint(VerdictKind(7), ResultKind(-1), IDKind(99)); text != "VerdictKind(7) ResultKind(-1) IDKind(99)" {
		t.Error(text)
	}
	if text := fmt.Sprint(JSONReason(0), JSONReason(9)); text != "JSONReason(0) JSONReason(9)" {
		t.Error(text)
	}
}

// What go doc shows of a type is its comment, and of its constants the first.
func TestCommentsOfKindsNameAllOfThem(t *testing.T) {
	sources := readFile(t, "go/compare.go")
	sources = append(sources, readFile(t, "go/notification.go")...)
	sources = append(sources, readFile(t, "go/reading.go")...)
	for kind, names := range map[string][]string{
		"VerdictKind": namesOfVerdictKind, "IDKind": namesOfIDKind, "ResultKind": namesOfResultKind,
		"JSONReason": namesOfJSONReason,
	} {
		comment := regexp.MustCompile(`((?://.*\n)+)type ` + kind + ` int\n`).FindSubmatch(sources)
		for _, name := range names {
			if comment == nil || !regexp.MustCompile(`\b`+name+`\b`).Match(comment[1]) {
				t.Errorf("%s is not in the comment of %s", name, kind)
			}
		}
	}
}
