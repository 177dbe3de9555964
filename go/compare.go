package pendratsoa

// HeaderEq returns whether two commands of a type, each by its payload, are the same for a replay. If payloads are
// ignored, the content of user data is not compared, but that of a signal is. ErrUnknown if the code is that of no
// command; ErrMalformed, ErrOutOfMemory.
func HeaderEq(code uint16, first, second []byte, ignorePayloads bool) (bool, error) {
	result := journalHeaderEq(code, first, second, ignorePayloads)
	if result < 0 {
		return false, commandError("HeaderEq", result, code, first, second)
	}
	return result != 0, nil
}

// Difference returns one line per printed field in which two commands of a type differ, each after a line feed and
// three spaces, and nothing if they differ in none. The errors are those of HeaderEq.
func Difference(code uint16, first, second []byte) (string, error) {
	text, result := written(textRoom, func(out []byte) int64 {
		return journalDifference(code, first, second, out)
	})
	if result < 0 {
		return "", commandError("Difference", result, code, first, second)
	}
	return string(text), nil
}

// commandError returns the error of a call that compares two commands, of the code or of one of the two.
func commandError(call string, result int64, code uint16, first, second []byte) error {
	given := arguments{
		code: codeText(code), payload: bytesText("first payload", first), second: bytesText("second payload", second),
	}
	return given.refusal(call, result)
}

// A VerdictKind tells how two journals compare: VerdictSame, VerdictRecordedEnded, VerdictReplayedEnded,
// VerdictTypeMismatch, VerdictHeaderMismatch, VerdictBadRecorded or VerdictBadReplayed.
type VerdictKind int

// String returns the name of the kind, as "VerdictSame".
func (kind VerdictKind) String() string {
	return nameOfKind("VerdictKind", namesOfVerdictKind, int(kind))
}

// A Verdict tells how two journals compare.
type Verdict struct {
	// Kind is which verdict it is.
	Kind VerdictKind
	// Index is that of the first command that differs, is malformed or is one more, from 0; of VerdictSame it is the
	// number of commands.
	Index uint64
	// Text is that of a mismatch, as the SDKs report it, and otherwise empty.
	Text string
}

// CompareJournals compares a recorded journal with a replayed one, both streams of a version, command by command. Other
// items, and trailing bytes, are skipped. If payloads are ignored, the content of user data is not
// compared, but that of a signal is. ErrUnknown for an unknown version; ErrOutOfMemory.
func CompareJournals(version int, recorded, replayed []byte, ignorePayloads bool) (Verdict, error) {
	number, err := unsigned("CompareJournals", versionName, version)
	if err != nil {
		return Verdict{}, err
	}
	var numbers [verdictNumbers]uint64
	text, result := written(textRoom, func(out []byte) int64 {
		return journalVerdict(number, recorded, replayed, ignorePayloads, &numbers, out)
	})
	if result < 0 {
		return Verdict{}, arguments{version: named(versionName, version)}.refusal("CompareJournals", result)
	}
	verdict, err := verdictOf(numbers[:], text)
	if err != nil {
		return Verdict{}, &Error{"CompareJournals", bytesText("replayed", replayed), err}
	}
	return verdict, nil
}

// verdictOf returns the verdict that the numbers and the bytes of the library say.
func verdictOf(numbers []uint64, text []byte) (Verdict, error) {
	if numbers[verdictKind] > uint64(VerdictBadReplayed) {
		return Verdict{}, unexpected("kind of verdict", numbers[verdictKind])
	}
	return Verdict{VerdictKind(numbers[verdictKind]), numbers[verdictIndex], string(text)}, nil
}
