package pendratsoa

import (
	"errors"
	"strings"
	"testing"
)

func TestCommands(t *testing.T) {
	first, second := unhex(t, "0a01611a030a0131"), unhex(t, "0a01611a030a0132")
	for _, test := range []struct {
		one, other     []byte
		ignorePayloads bool
		want           bool
	}{
		{first, first, false, true},
		{first, first, true, true},
		{first, second, false, false},
		{first, second, true, true},
		{first, nil, true, false},
	} {
		if same := must(HeaderEq(CodeSetStateCommand, test.one, test.other, test.ignorePayloads))(t); same != test.want {
			t.Errorf("%x, %x, %v: %v", test.one, test.other, test.ignorePayloads, same)
		}
	}
	if text := must(Difference(CodeSetStateCommand, first, second))(t); text != "\n   value: '1' != '2'" {
		t.Errorf("the difference is %q", text)
	}
	if text := must(Difference(CodeSetStateCommand, first, first))(t); text != "" {
		t.Errorf("the difference is %q", text)
	}
}

func TestLongDifference(t *testing.T) {
	long := strings.Repeat("long", 1000)
	first := append(unhex(t, "0aa01f"), long...)
	want := "\n   key: '" + long + "' != ''"
	if text := must(Difference(CodeSetStateCommand, first, nil))(t); text != want {
		t.Errorf("the difference is %q", text)
	}
}

func TestCommandsThatAreNone(t *testing.T) {
	good, bad := unhex(t, "0a0161"), unhex(t, "0a")
	_, err := HeaderEq(CodeCallCompletionNotification, good, bad, false)
	wantError(t, err, ErrUnknown, "pendratsoa: HeaderEq: unknown code 0x800d, or not of the kind that the call is for")
	_, err = HeaderEq(CodeSetStateCommand, good, bad, false)
	wantError(t, err, ErrMalformed, "pendratsoa: HeaderEq: second payload of 1 byte is malformed")
	_, err = Difference(0xfc01, good, good)
	wantError(t, err, ErrUnknown, "pendratsoa: Difference: unknown code 0xfc01, or not of the kind that the call is for")
	_, err = Difference(CodeSetStateCommand, bad, good)
	wantError(t, err, ErrMalformed, "pendratsoa: Difference: first payload of 1 byte is malformed")
}

func TestJournals(t *testing.T) {
	recorded := readFile(t, "examples/streams/recorded")
	other := readFile(t, "examples/streams/replayed_other_payload")
	verdict := must(CompareJournals(8, recorded, other, false))(t)
	text := "\n   value: '1' != '2'"
	if verdict.Kind != VerdictHeaderMismatch || verdict.Index != 1 || !strings.HasSuffix(verdict.Text, text) {
		t.Errorf("%+v", verdict)
	}
	bad := append(must(Header(8, CodeCallCommand, 1))(t), 0x0a)
	for name, test := range map[string]struct {
		recorded, replayed []byte
		ignorePayloads     bool
		want               Verdict
	}{
		"same":               {recorded, recorded, false, Verdict{VerdictSame, 4, ""}},
		"same but payloads":  {recorded, other, true, Verdict{VerdictSame, 4, ""}},
		"both of nothing":    {nil, []byte{}, false, Verdict{VerdictSame, 0, ""}},
		"recorded ended":     {nil, recorded, false, Verdict{VerdictRecordedEnded, 0, ""}},
		"replayed ended":     {recorded, nil, false, Verdict{VerdictReplayedEnded, 0, ""}},
		"bytes of no header": {recorded[:7], []byte{4}, false, Verdict{VerdictSame, 0, ""}},
		"bad recorded":       {bad, bad, false, Verdict{VerdictBadRecorded, 0, ""}},
	} {
		found := must(CompareJournals(8, test.recorded, test.replayed, test.ignorePayloads))(t)
		if found != test.want {
			t.Errorf("%s: %+v", name, found)
		}
	}
}

// Custom entries are not compared, also those whose code is in the range of commands.
func TestJournalsWithCustomEntries(t *testing.T) {
	recorded := readFile(t, "examples/streams/recorded")
	for _, code := range []string{"3f3f", "fc01"} {
		replayed := append(unhex(t, code+"000000000001ff"), recorded...)
		verdict := must(CompareJournals(8, recorded, replayed, false))(t)
		if verdict != (Verdict{VerdictSame, 4, ""}) {
			t.Errorf("%s: %+v", code, verdict)
		}
	}
}

func TestVerdictOfLaterLibrary(t *testing.T) {
	numbers := make([]uint64, verdictNumbers)
	numbers[verdictKind] = uint64(VerdictBadReplayed) + 1
	if _, err := verdictOf(numbers, nil); !errors.Is(err, ErrUnexpected) {
		t.Error(err)
	}
}
