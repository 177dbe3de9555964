package pendratsoa

import "math"

// A ChangedField is a field in which two commands differ, as the text of their mismatch prints it.
type ChangedField struct {
	// Name is that of the field in the .proto, as "handler_name".
	Name string
	// Recorded is what the recorded command has, and Replayed what the replayed one has. A text is as it is in the
	// journal, of any length and with any control characters; bytes are quoted. Escape them before you print them in a
	// line.
	Recorded, Replayed string
}

// A Mismatch is where a replay leaves its recording: all commands before this one are the same.
type Mismatch struct {
	// Kind is which verdict it is, and never VerdictSame.
	Kind VerdictKind
	// Index is that of the command, from 0.
	Index uint64
	// RecordedOffset is where the recorded command begins in the recording, in bytes. If the recording has ended, it is
	// where its last command begins, or -1 if it has none.
	RecordedOffset int64
	// ReplayedOffset is where the replayed command begins in the replay, in bytes, or where the replay ends.
	ReplayedOffset int64
	// Text is that of a mismatch of two commands, as the SDKs report it, and otherwise empty.
	Text string
	// Fields are the printed fields in which two commands of one type differ. There are none if the commands differ only
	// in what is not printed, such as the name of most commands.
	Fields []ChangedField
}

// A Replay checks a replay by its recording, item by item as it comes. It keeps nothing of the replay.
//
// NewReplay makes one. Several goroutines may use it only one at a time.
type Replay struct {
	version  int
	recorded []byte
	numbers  [replayNumbers]uint64
	// what the calls write, which would be allocated for each of them
	next     [replayNumbers]uint64
	mismatch [mismatchNumbers]uint64
	command  [commandNumbers]uint64
	item     [itemNumbers]uint64
}

// Ignored is what a Replay does not compare.
type Ignored struct {
	// Payloads is whether the content of user data is ignored, but not that of a signal.
	Payloads bool
	// IDs is whether completion ids are, which shift after an inserted command.
	IDs bool
}

// options returns the number that stands for it.
func (i Ignored) options() uint64 {
	var options uint64
	if i.Payloads {
		options |= replayIgnorePayloads
	}
	if i.IDs {
		options |= replayIgnoreIds
	}
	return options
}

// NewReplay returns a replay of a version that is checked by a recording, which is a whole journal and must not change
// meanwhile. RecordedRest tells whether it is whole. ErrUnknown for an unknown version.
func NewReplay(version int, recorded []byte, ignored Ignored) (*Replay, error) {
	number, err := unsigned("NewReplay", versionName, version)
	if err != nil {
		return nil, err
	}
	r := &Replay{version: version, recorded: recorded}
	r.numbers[replayVersion] = uint64(number)
	r.numbers[replayOptions] = ignored.options()
	// that there is no such version is known before an item comes
	if result := journalReplayExpected(recorded, &r.numbers, &r.command); result < 0 {
		return nil, r.refusal("NewReplay", result)
	}
	return r, nil
}

// Index returns how many commands were the same, which is the index of the one that comes next.
func (r *Replay) Index() uint64 {
	return r.numbers[replayIndex]
}

// RecordedRest returns how many bytes of the recording follow its last whole item, which are not compared: 0 of a whole
// one. It walks over the recording, and changes nothing.
func (r *Replay) RecordedRest() int {
	// the command that was the same last, or the beginning, is where an item begins
	rest := r.recorded[r.numbers[replayRecordedOffset]:]
	var found [mostItems][itemNumbers]uint64
	for {
		count := journalItems(uint32(r.version), math.MaxUint32, rest, found[:])
		if count <= 0 {
			return len(rest)
		}
		for i := range found[:count] {
			rest = rest[found[i][itemSize]:]
		}
	}
}

// Check checks the next item of the replay by the command that comes next in the recording. It returns nil if there is
// nothing to say: the commands are the same, or the item is not a command. A mismatch is reported once: afterwards
// nothing is compared. CompareJournals of the recording and of all items so far has the same kind, index and text.
//
// ErrOutOfMemory changes nothing, so that the call can be repeated. ErrUnknown for an item that is nil.
func (r *Replay) Check(item Item) (*Mismatch, error) {
	code, payload, isItem := partsOf(item)
	if !isItem {
		return nil, &Error{"Replay.Check", "a nil item", ErrUnknown}
	}
	// the replay goes on by its copy once all of the mismatch is there
	r.next = r.numbers
	result := journalReplayCheck(code, r.recorded, payload, &r.next, &r.mismatch)
	if result < 0 {
		return nil, r.refusal("Replay.Check", result)
	}
	var found *Mismatch
	if result > 0 {
		var err error
		if found, err = r.said("Replay.Check", code, payload); err != nil {
			return nil, err
		}
	}
	message, isMessage := item.(*Message)
	if isMessage && r.next[replayReplayedOffset] != r.numbers[replayReplayedOffset] {
		r.next[replayReplayedOffset] += message.came.more(payload)
	}
	r.numbers = r.next
	return found, nil
}

// Expected returns the command that comes next in the recording, which is not taken, and whether there is one. Its
// Offset is that in the recording, its payload a part of it, and its record has the name or the key of a command that
// has one. After a mismatch it is the command at the index of that.
func (r *Replay) Expected() (*Message, bool, error) {
	result := journalReplayExpected(r.recorded, &r.numbers, &r.command)
	if result < 0 {
		return nil, false, r.refusal("Replay.Expected", result)
	}
	if result == 0 {
		return nil, false, nil
	}
	begin, size := r.command[commandOffset], r.command[commandSize]
	bytes := r.recorded[begin : begin+size : begin+size]
	if missing := journalNext(uint32(r.version), bytes, &r.item); missing < 0 {
		return nil, false, r.refusal("Replay.Expected", missing)
	}
	if kind := r.item[itemKind]; kind != itemMessage {
		err := unexpected("kind of item", kind)
		return nil, false, &Error{"Replay.Expected", named(versionName, r.version), err}
	}
	command := new(Message)
	command.receive(r.version, &r.item, bytes, positionAt(int64(begin)))
	return command, true, nil
}

// Finish says that the replay ended. It returns nil if nothing is left of the recording, or a mismatch was reported.
// Otherwise it returns the mismatch of the command that comes next, whose kind is VerdictReplayedEnded. It changes
// nothing.
func (r *Replay) Finish() (*Mismatch, error) {
	result := journalReplayFinish(r.recorded, &r.numbers, &r.mismatch)
	if result < 0 {
		return nil, r.refusal("Replay.Finish", result)
	}
	if result == 0 {
		return nil, nil
	}
	return r.said("Replay.Finish", 0, nil)
}

// said returns the mismatch that the library said of an item.
func (r *Replay) said(call string, code uint16, payload []byte) (*Mismatch, error) {
	numbers := &r.mismatch
	if numbers[mismatchKind] > uint64(VerdictBadReplayed) {
		return nil, &Error{call, codeText(code), unexpected("kind of verdict", numbers[mismatchKind])}
	}
	found := &Mismatch{
		Kind:           VerdictKind(numbers[mismatchKind]),
		Index:          numbers[mismatchIndex],
		RecordedOffset: int64(numbers[mismatchRecordedOffset]),
		ReplayedOffset: int64(numbers[mismatchReplayedOffset]),
	}
	size := int64(numbers[mismatchRecordedSize])
	if size == 0 {
		found.RecordedOffset = -1
	}
	var err error
	switch found.Kind {
	case VerdictHeaderMismatch:
		recorded := r.recorded[found.RecordedOffset+headerSize : found.RecordedOffset+size]
		if found.Fields, err = changedFields(call, code, recorded, payload); err != nil {
			return nil, err
		}
		found.Text, err = r.text(call, code, payload)
	case VerdictTypeMismatch:
		found.Text, err = r.text(call, code, payload)
	}
	if err != nil {
		return nil, err
	}
	return found, nil
}

// text returns the text of the mismatch of an item.
func (r *Replay) text(call string, code uint16, payload []byte) (string, error) {
	text, result := written(textRoom, func(out []byte) int64 {
		return journalReplayText(code, r.recorded, payload, &r.numbers, out)
	})
	if result < 0 {
		return "", r.refusal(call, result)
	}
	return string(text), nil
}

// refusal returns the error of a call of a replay.
func (r *Replay) refusal(call string, result int64) error {
	given := arguments{version: named(versionName, r.version), payload: "the item", second: "the item"}
	return given.refusal(call, result)
}

// changedFields returns the printed fields in which two commands of a type differ.
func changedFields(call string, code uint16, recorded, replayed []byte) ([]ChangedField, error) {
	var fields []ChangedField
	for {
		var numbers [changedFieldNumbers]uint64
		bytes, result := written(textRoom, func(out []byte) int64 {
			return journalChangedField(code, uint32(len(fields)), recorded, replayed, &numbers, out)
		})
		if result < 0 {
			return nil, commandError(call, result, code, recorded, replayed)
		}
		if len(bytes) == 0 {
			return fields, nil
		}
		first := numbers[changedFieldNameLength]
		second := first + numbers[changedFieldFirstLength]
		fields = append(fields, ChangedField{string(bytes[:first]), string(bytes[first:second]), string(bytes[second:])})
	}
}

// partsOf returns the code and the payload of an item, and whether it is one, and not nil.
func partsOf(item Item) (code uint16, payload []byte, isItem bool) {
	switch item := item.(type) {
	case *Message:
		if item != nil {
			return item.Code, item.Payload, true
		}
	case *UnknownCode:
		if item != nil {
			return item.Code, nil, true
		}
	case *Skipped:
		if item != nil {
			return item.Code, item.Payload, true
		}
	}
	return 0, nil, false
}
