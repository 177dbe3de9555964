package pendratsoa

import (
	"bytes"
	"errors"
	"fmt"
	"reflect"
	"strings"
	"testing"
)

// The lines of conformance/replays, which its README specifies. What is said of each replay is the verdict of both
// journals as a whole.
func TestReplays(t *testing.T) {
	passed := 0
	for _, line := range strings.Split(string(readFile(t, "conformance/replays/worked.txt")), "\n") {
		if line == "" || strings.HasPrefix(line, "#") {
			continue
		}
		question, want, _ := strings.Cut(line, " = ")
		words := strings.Split(question, " ")
		var version int
		if _, err := fmt.Sscan(words[1], &version); err != nil {
			t.Fatal(err)
		}
		var replayed []byte
		for _, word := range words[4:] {
			replayed = append(replayed, bytesOf(t, word)...)
		}
		if found := replayCase(t, version, bytesOf(t, words[3]), replayed, words[2] == "ignored"); found == want {
			passed++
		} else {
			t.Errorf("%s\nreturned: %s", line, found)
		}
	}
	if passed < 20 {
		t.Errorf("%d cases passed", passed)
	}
}

// Each beginning of a recording and of a replay: what is said is the verdict of both as a whole.
func TestReplaysCutShort(t *testing.T) {
	recorded := readFile(t, "examples/streams/recorded")
	other := readFile(t, "examples/streams/replayed_other_payload")
	for _, isIgnored := range []bool{false, true} {
		for end := range other {
			replayCase(t, 8, recorded, other[:end], isIgnored)
		}
		for end := range recorded {
			replayCase(t, 8, recorded[:end], other, isIgnored)
		}
	}
}

// itemsIn returns the whole items of a stream.
func itemsIn(version int, stream []byte) []Item {
	items, _ := all(NewDecoder(bytes.NewReader(stream), version))
	return items
}

// commandsIn returns the commands of a stream that are compared.
func commandsIn(version int, stream []byte) []*Message {
	var commands []*Message
	for _, item := range itemsIn(version, stream) {
		message, isMessage := item.(*Message)
		if isMessage && message.IsCommand() && !strings.HasPrefix(message.Type(), "CustomEntry") {
			commands = append(commands, message)
		}
	}
	return commands
}

// replayCase returns what is said of a replay.
func replayCase(t *testing.T, version int, recorded, replayed []byte, ignorePayloads bool) string {
	t.Helper()
	replay := must(NewReplay(version, recorded, Ignored{Payloads: ignorePayloads}))(t)
	wantRest(t, replay, version, recorded)
	commands := commandsIn(version, recorded)
	items := itemsIn(version, replayed)
	count, index := 0, 0
	var mismatch *Mismatch
	for ; mismatch == nil && count < len(items); count++ {
		wantExpected(t, replay, commands[min(index, len(commands)):])
		mismatch = must(replay.Check(items[count]))(t)
		index += len(commandsIn(version, items[count].Bytes()))
	}
	if mismatch != nil {
		count--
		wantExpected(t, replay, commands[min(int(mismatch.Index), len(commands)):])
		for _, item := range items {
			if again := must(replay.Check(item))(t); again != nil {
				t.Errorf("said again: %+v", again)
			}
		}
		if left := must(replay.Finish())(t); left != nil {
			t.Errorf("left: %+v", left)
		}
	} else {
		mismatch = must(replay.Finish())(t)
	}
	wantRest(t, replay, version, recorded)
	verdict := must(CompareJournals(version, recorded, replayed, ignorePayloads))(t)
	if replay.Index() != verdict.Index {
		t.Errorf("%d commands are the same, and the verdict is %+v", replay.Index(), verdict)
	}
	if mismatch == nil {
		if verdict.Kind != VerdictSame {
			t.Errorf("nothing is said, and the verdict is %+v", verdict)
		}
		return fmt.Sprintf("same %d", verdict.Index)
	}
	if found := (Verdict{mismatch.Kind, mismatch.Index, mismatch.Text}); found != verdict {
		t.Errorf("%+v is said, and the verdict is %+v", found, verdict)
	}
	wantFields(t, mismatch, recorded, replayed)
	return wordsOf(mismatch, count)
}

func min(first, second int) int {
	if first < second {
		return first
	}
	return second
}

// wantExpected fails unless a replay expects the first of these commands, or none.
func wantExpected(t *testing.T, replay *Replay, commands []*Message) {
	t.Helper()
	found, isThere, err := replay.Expected()
	if err != nil || isThere != (len(commands) > 0) {
		t.Errorf("expected: %v %v %v", found, isThere, err)
	} else if isThere && !reflect.DeepEqual(found, commands[0]) {
		t.Errorf("expected: %v, and not %v", found, commands[0])
	}
}

// wantRest fails unless as many bytes follow the last whole item of a recording as a decoder does not return.
func wantRest(t *testing.T, replay *Replay, version int, recorded []byte) {
	t.Helper()
	decoder := NewDecoder(bytes.NewReader(recorded), version)
	_, _ = all(decoder)
	if found := replay.RecordedRest(); found != decoder.Rest() {
		t.Errorf("%d bytes follow the last whole item, and not %d", found, decoder.Rest())
	}
}

// wantFields fails unless the fields of a mismatch are the lines of the difference of both commands.
func wantFields(t *testing.T, mismatch *Mismatch, recorded, replayed []byte) {
	t.Helper()
	want, lines := "", ""
	if mismatch.Kind == VerdictHeaderMismatch {
		code := uint16(recorded[mismatch.RecordedOffset])<<8 | uint16(recorded[mismatch.RecordedOffset+1])
		payload := func(stream []byte, offset int64) []byte {
			return itemsIn(8, stream[offset:])[0].(*Message).Payload
		}
		first, second := payload(recorded, mismatch.RecordedOffset), payload(replayed, mismatch.ReplayedOffset)
		want = must(Difference(code, first, second))(t)
	}
	for _, field := range mismatch.Fields {
		lines += fmt.Sprintf("\n   %s: %s != %s", field.Name, field.Recorded, field.Replayed)
	}
	if lines != want {
		t.Errorf("the fields are %q, and the difference is %q", lines, want)
	}
}

// wordsOf returns a mismatch after this many items as the vectors have it.
func wordsOf(mismatch *Mismatch, items int) string {
	recorded := "-"
	if mismatch.RecordedOffset >= 0 {
		recorded = fmt.Sprint(mismatch.RecordedOffset)
	}
	places := fmt.Sprintf("%d %d %s %d", mismatch.Index, items, recorded, mismatch.ReplayedOffset)
	switch mismatch.Kind {
	case VerdictRecordedEnded:
		return "recorded_ended " + places
	case VerdictTypeMismatch:
		return "other_type " + places
	case VerdictHeaderMismatch:
		return "other_command " + places
	case VerdictReplayedEnded:
		return fmt.Sprintf("replayed_ended %d", mismatch.Index)
	case VerdictBadRecorded:
		return fmt.Sprintf("malformed recorded %d %d", mismatch.Index, items)
	case VerdictBadReplayed:
		return fmt.Sprintf("malformed replayed %d %d", mismatch.Index, items)
	}
	return mismatch.Kind.String()
}

func TestReplayArguments(t *testing.T) {
	for _, version := range []int{-1, 0, 4, 10, 1 << 40} {
		_, err := NewReplay(version, nil, Ignored{})
		text := fmt.Sprintf("pendratsoa: NewReplay: unknown protocol version %d (5 to 9)", version)
		wantError(t, err, ErrUnknown, text)
	}
	replay := must(NewReplay(8, nil, Ignored{}))(t)
	text := "pendratsoa: Replay.Check: a nil item: unknown, or not of the kind that the call is for"
	for _, item := range []Item{nil, (*Message)(nil), (*UnknownCode)(nil), (*Skipped)(nil)} {
		_, err := replay.Check(item)
		wantError(t, err, ErrUnknown, text)
	}
}

// Of more items than are looked for at once, before and after each of them is checked, and of none.
func TestRecordedRest(t *testing.T) {
	recorded := bytes.Repeat(unhex(t, "040c000000000000"), 3*mostItems)
	for _, trailing := range []string{"", "04", "04030000000000"} {
		replay := must(NewReplay(8, append(recorded, unhex(t, trailing)...), Ignored{}))(t)
		for _, item := range itemsIn(8, recorded) {
			before := replay.numbers
			if found := replay.RecordedRest(); found != len(trailing)/2 || replay.numbers != before {
				t.Fatalf("after %d commands: %d, and not %d", replay.Index(), found, len(trailing)/2)
			}
			if mismatch := must(replay.Check(item))(t); mismatch != nil {
				t.Fatalf("%+v", mismatch)
			}
		}
		if found := replay.RecordedRest(); found != len(trailing)/2 {
			t.Errorf("at the end: %d, and not %d", found, len(trailing)/2)
		}
	}
	var zero Replay
	if found := zero.RecordedRest(); found != 0 {
		t.Errorf("of no recording: %d", found)
	}
}

func TestReplayOfLaterLibrary(t *testing.T) {
	replay := must(NewReplay(8, nil, Ignored{}))(t)
	replay.mismatch[mismatchKind] = uint64(VerdictBadReplayed) + 1
	if _, err := replay.said("Replay.Check", 0, nil); !errors.Is(err, ErrUnexpected) {
		t.Error(err)
	}
}

// Nothing is allocated for an item that is the same.
func TestReplayAllocatesNothing(t *testing.T) {
	recorded := bytes.Repeat(unhex(t, "040c000000000000"), 2000)
	items := itemsIn(8, recorded)
	replay := must(NewReplay(8, recorded, Ignored{}))(t)
	at := 0
	count := testing.AllocsPerRun(len(items)-1, func() {
		if mismatch, err := replay.Check(items[at]); mismatch != nil || err != nil {
			t.Errorf("%+v %v", mismatch, err)
		}
		at++
	})
	if count != 0 {
		t.Errorf("%v allocations", count)
	}
	if left := must(replay.Finish())(t); left != nil {
		t.Errorf("left: %+v", left)
	}
}
