package pendratsoa

import (
	"bytes"
	"encoding/hex"
	"errors"
	"fmt"
	"io"
	"math/big"
	"regexp"
	"strconv"
	"strings"
	"testing"
	"testing/iotest"
)

// The cases of conformance/packages.cases, which its README specifies: what each kind of line returns for its words.
var packageCases = map[string]func(t *testing.T, words []string) string{
	"items": itemsCase, "not_strict": notStrictCase, "read": readCase, "as": asCase, "compare": compareCase,
	"mismatch": mismatchCase, "replay": stepsCase, "rest": restCase, "encode": encodeCase, "message": messageCase,
	"new": newCase, "decode": decodeCase, "json": jsonCase, "number": numberCase, "name": nameCase, "limit": limitCase,
}

func TestPackages(t *testing.T) {
	passed := 0
	for _, line := range strings.Split(string(readFile(t, "conformance/packages.cases")), "\n") {
		if line == "" || strings.HasPrefix(line, "#") {
			continue
		}
		question, want, _ := strings.Cut(line, " = ")
		words := strings.Split(question, " ")
		isText := words[0] == "text"
		if isText {
			words = words[1:]
		}
		result, isKnown := packageCases[words[0]]
		if !isKnown {
			t.Errorf("no such case: %s", line)
			continue
		}
		notedTexts = map[string]bool{}
		found := result(t, words[1:])
		if isText {
			found = notedText()
		}
		if found == want {
			passed++
		} else {
			t.Errorf("%s\nreturned: %s", line, found)
		}
	}
	if passed < 100 {
		t.Errorf("%d cases passed", passed)
	}
}

// The texts of the errors with which a case ended, in whatever chunks its stream came.
var notedTexts map[string]bool

// noted returns the result of a case that ends with an error, whose text it notes without the names of the package and
// of the call.
func noted(err error, result string) string {
	text := strings.TrimPrefix(err.Error(), "pendratsoa: ")
	var of *Error
	if errors.As(err, &of) {
		text = strings.TrimPrefix(text, of.Call+": ")
	}
	notedTexts[text] = true
	return result
}

// notedText returns the text of the errors with which a case ended.
func notedText() string {
	var texts []string
	for text := range notedTexts {
		texts = append(texts, text)
	}
	return strings.Join(texts, ", and ")
}

// The cases of conformance/numberings.cases, which the same README specifies. A rename that is not a pair of names is
// left out, since a map cannot have it.
func TestNumberings(t *testing.T) {
	numberings, passed := map[string]*Numbering{}, 0
	for _, line := range strings.Split(string(readFile(t, "conformance/numberings.cases")), "\n") {
		if line == "" || strings.HasPrefix(line, "#") {
			continue
		}
		question, want, _ := strings.Cut(line, " = ")
		words := strings.Split(question, " ")
		var found string
		switch words[0] {
		case "set":
			renames, arePairs := renamesOf(string(bytesOf(t, words[2])))
			if !arePairs {
				continue
			}
			numbering, err := NewNumbering(bytesOf(t, words[3]), renames)
			numberings[words[1]] = numbering
			found = setCase(err)
		case "read", "write":
			schema := must(SchemaNamed(words[2]))(t)
			by := map[string]func(int, []byte) ([]byte, error){
				"read": numberings[words[1]].ReadPayload, "write": numberings[words[1]].WritePayload,
			}[words[0]]
			found = renumberedCase(by(schema, bytesOf(t, words[3])))
		case "stream":
			by := map[string]func(int, []byte) ([]byte, error){
				"read": numberings[words[2]].ReadStream, "write": numberings[words[2]].WriteStream,
			}[words[1]]
			version, stream := must(strconv.Atoi(words[3]))(t), bytesOf(t, words[4])
			read, err := by(version, stream)
			found = renumberedCase(read, err)
			if words[1] == "read" {
				sameItems(t, numberings[words[2]], version, stream, read, err)
			}
		}
		if found != want {
			t.Errorf("%s\nreturned: %s", line, found)
		}
		passed++
	}
	if passed < 600 {
		t.Errorf("%d cases passed", passed)
	}
}

// renamesOf returns the names of lines, and whether each is a pair.
func renamesOf(lines string) (map[string]string, bool) {
	renames := map[string]string{}
	for _, line := range strings.Split(strings.TrimSuffix(lines, "\n"), "\n") {
		theirs, ours, isPair := strings.Cut(line, "=")
		if !isPair && line != "" {
			return nil, false
		}
		if isPair {
			renames[theirs] = ours
		}
	}
	return renames, true
}

func setCase(err error) string {
	var why *NumberingError
	switch {
	case err == nil:
		return "ok"
	case !errors.As(err, &why):
		return err.Error()
	case why.Reason == ReasonNoSet && err.Error() == "pendratsoa: NewNumbering: descriptor set: "+why.Text:
		return "no_set " + digitsOf([]byte(why.Text))
	case why.Reason == ReasonNoRename && err.Error() == "pendratsoa: NewNumbering: renames: "+why.Text:
		return "no_rename " + digitsOf([]byte(why.Text))
	}
	return err.Error()
}

func renumberedCase(found []byte, err error) string {
	switch {
	case err == nil:
		return digitsOf(found)
	case errors.Is(err, ErrMalformed):
		return "malformed"
	case errors.Is(err, ErrUnknown):
		return "unknown"
	}
	return err.Error()
}

// sameItems looks whether a decoder with a numbering has the messages of the stream that was read by it.
func sameItems(t *testing.T, numbering *Numbering, version int, stream, read []byte, readErr error) {
	decoder := NewDecoder(bytes.NewReader(stream), version)
	decoder.SetNumbering(numbering)
	items, err := all(decoder)
	if readErr != nil {
		if renumberedCase(nil, err) != renumberedCase(nil, readErr) {
			t.Errorf("%x: %v, and %v", stream, err, readErr)
		}
		return
	}
	own, _ := all(NewDecoder(bytes.NewReader(read), version))
	var copied []byte
	for i, item := range items {
		if item.String() != own[i].String() {
			t.Errorf("%x: %v, and not %v", stream, item, own[i])
		}
		if message, isMessage := item.(*Message); isMessage && !bytes.Equal(message.Payload, own[i].(*Message).Payload) {
			t.Errorf("%x: %x", stream, message.Payload)
		}
		copied = append(copied, item.Bytes()...)
	}
	if copied = append(copied, decoder.Trailing()...); len(items) != len(own) || !bytes.Equal(copied, stream) {
		t.Errorf("%x: %d items, %x", stream, len(items), copied)
	}
}

// bytesOf returns the bytes of a word.
func bytesOf(t *testing.T, word string) []byte {
	return unhex(t, strings.TrimPrefix(word, "-"))
}

// digitsOf returns bytes as a word.
func digitsOf(bytes []byte) string {
	if len(bytes) == 0 {
		return "-"
	}
	return hex.EncodeToString(bytes)
}

// nameOf returns the name of a type, or - where no type has the code.
func nameOf(name string) string {
	if name == "" {
		return "-"
	}
	return name
}

func itemsCase(t *testing.T, words []string) string {
	return loopCase(t, words, true)
}

func notStrictCase(t *testing.T, words []string) string {
	return loopCase(t, words, false)
}

// loopCase returns the items of a stream in these chunks, and how it ends.
func loopCase(t *testing.T, words []string, isStrict bool) string {
	version, limit := must(strconv.Atoi(words[0]))(t), words[1]
	open := func(reader io.Reader) *Decoder {
		decoder := NewDecoder(reader, version)
		if limit != "-" {
			decoder.SetMaxMessageSize(uint32(must(strconv.Atoi(limit))(t)))
		}
		decoder.SetStrict(isStrict)
		return decoder
	}
	var readers []io.Reader
	var stream []byte
	for _, word := range words[2:] {
		chunk := bytesOf(t, word)
		stream = append(stream, chunk...)
		readers = append(readers, bytes.NewReader(chunk))
	}
	found := streamCase(t, open, io.MultiReader(readers...))
	for _, reader := range []io.Reader{bytes.NewReader(stream), iotest.OneByteReader(bytes.NewReader(stream))} {
		if again := streamCase(t, open, reader); again != found {
			t.Errorf("in other chunks: %s", again)
		}
	}
	return found
}

// streamCase returns the items of a stream with their offsets, and how it ends.
func streamCase(t *testing.T, open func(io.Reader) *Decoder, reader io.Reader) string {
	var given bytes.Buffer
	decoder := open(io.TeeReader(reader, &given))
	items, err := all(decoder)
	var lines []string
	var came []byte
	for _, item := range items {
		lines = append(lines, fmt.Sprintf("%d %v", item.Offset(), item))
		came = append(came, item.Bytes()...)
	}
	if came = append(came, decoder.Trailing()...); !bytes.Equal(came, given.Bytes()) {
		t.Errorf("the bytes of the items, and those after them, are %x", came)
	}
	if _, again := decoder.Next(); again == nil || again.Error() != err.Error() {
		t.Errorf("first %v, and then %v", err, again)
	}
	end := endOf(err)
	if decoder.isLenient && err == io.EOF {
		end = fmt.Sprintf("ended %d", decoder.Rest())
	}
	if len(lines) == 0 {
		return end
	}
	return strings.Join(lines, ", ") + "; " + end
}

// endOf returns how a stream ends.
func endOf(err error) string {
	var incomplete *IncompleteError
	var long *MessageTooLongError
	switch {
	case err == io.EOF:
		return "whole"
	case errors.As(err, &incomplete) && errors.Is(err, io.ErrUnexpectedEOF):
		return noted(err, fmt.Sprintf("incomplete %d %d %s", incomplete.Offset, incomplete.Rest, nameOf(incomplete.Type)))
	case errors.As(err, &long) && errors.Is(err, ErrTooLong):
		return noted(err, fmt.Sprintf("too_long %d %s %d", long.Offset, nameOf(long.Type), long.Length))
	}
	return err.Error()
}

// itemsOf returns the items of a stream that is there as a whole.
func itemsOf(t *testing.T, version string, word string) []Item {
	items, err := all(NewDecoder(bytes.NewReader(bytesOf(t, word)), must(strconv.Atoi(version))(t)))
	if err != io.EOF {
		t.Errorf("%s ends with %v", word, err)
	}
	return items
}

// The calls that read the payload of a message.
var readCalls = map[string]func(message *Message) error{
	"json":         func(message *Message) error { _, err := message.JSON(); return err },
	"canonical":    func(message *Message) error { _, err := message.Canonical(); return err },
	"frame":        func(message *Message) error { _, err := message.Frame(message.Version); return err },
	"notification": func(message *Message) error { _, err := message.Notification(); return err },
}

func readCase(t *testing.T, words []string) string {
	var results []string
	for _, item := range itemsOf(t, words[1], words[2]) {
		message, isMessage := item.(*Message)
		switch {
		case !isMessage:
			results = append(results, "none")
		case words[0] == "record":
			record, err := message.Record()
			if record == nil && err == nil {
				results = append(results, "none")
			} else {
				results = append(results, outcomeOf(t, message, err))
			}
		default:
			results = append(results, outcomeOf(t, message, readCalls[words[0]](message)))
		}
	}
	return strings.Join(results, ", ")
}

// outcomeOf returns what an error of a message is; one of its payload tells which message it is of.
func outcomeOf(t *testing.T, message *Message, err error) string {
	if err == nil {
		return "ok"
	}
	if errors.Is(err, ErrUnknown) {
		return noted(err, "unknown")
	}
	var of *MessageError
	if !errors.As(err, &of) {
		return err.Error()
	}
	if of.Code != message.Code {
		t.Errorf("the error is %v", err)
	}
	for kind, wanted := range map[string]error{"malformed": ErrMalformed, "no_id": ErrNoID, "no_result": ErrNoResult} {
		if errors.Is(err, wanted) {
			return noted(err, fmt.Sprintf("%s %s %d", kind, nameOf(of.Type), of.Offset))
		}
	}
	return err.Error()
}

// asCall returns what As makes of an item, for the record of a type: the canonical payload of the record.
func asCall[R Record](t *testing.T, item Item) string {
	record, isRecord, err := As[R](item)
	if err != nil {
		return outcomeOf(t, item.(*Message), err)
	}
	if !isRecord {
		return "none"
	}
	return digitsOf(must(record.MarshalBinary())(t))
}

var asCalls = map[string]func(t *testing.T, item Item) string{
	"EndMessage":             asCall[*EndMessage],
	"InputCommandMessage":    asCall[*InputCommandMessage],
	"SetStateCommandMessage": asCall[*SetStateCommandMessage],
	"SleepCommandMessage":    asCall[*SleepCommandMessage],
	"SuspensionMessage":      asCall[*SuspensionMessage],
	"SuspensionMessageV6":    asCall[*SuspensionMessageV6],
}

func asCase(t *testing.T, words []string) string {
	var results []string
	for _, item := range itemsOf(t, words[1], words[2]) {
		results = append(results, asCalls[words[0]](t, item))
	}
	return strings.Join(results, ", ")
}

func compareCase(t *testing.T, words []string) string {
	recorded, replayed := bytesOf(t, words[2]), bytesOf(t, words[3])
	version := must(strconv.Atoi(words[0]))(t)
	verdict := must(CompareJournals(version, recorded, replayed, words[1] == "yes"))(t)
	return fmt.Sprintf("%s %d", kindOf(verdict.Kind), verdict.Index)
}

// kindOf returns a kind of a verdict as the lines have it, as recorded_ended.
func kindOf(kind VerdictKind) string {
	name := strings.TrimPrefix(kind.String(), "Verdict")
	return strings.ToLower(regexp.MustCompile(`(.)([A-Z])`).ReplaceAllString(name, "${1}_$2"))
}

func mismatchCase(t *testing.T, words []string) string {
	version := must(strconv.Atoi(words[0]))(t)
	ignored := Ignored{Payloads: words[1] == "yes", IDs: words[1] == "ids"}
	replay := must(NewReplay(version, bytesOf(t, words[2]), ignored))(t)
	var found []*Mismatch
	for _, item := range itemsIn(version, bytesOf(t, words[3])) {
		if mismatch := must(replay.Check(item))(t); mismatch != nil {
			found = append(found, mismatch)
		}
	}
	if left := must(replay.Finish())(t); left != nil {
		found = append(found, left)
	}
	if len(found) == 0 {
		return "none"
	} else if len(found) > 1 {
		t.Errorf("several mismatches: %v", found)
	}
	said, offset := found[0], "-"
	if said.RecordedOffset >= 0 {
		offset = strconv.FormatInt(said.RecordedOffset, 10)
	}
	line := fmt.Sprintf("%s %d %s %d %s", kindOf(said.Kind), said.Index, offset, said.ReplayedOffset,
		digitsOf([]byte(said.Text)))
	for _, field := range said.Fields {
		line += fmt.Sprintf(" %s %s %s", field.Name, digitsOf([]byte(field.Recorded)), digitsOf([]byte(field.Replayed)))
	}
	return line
}

func stepsCase(t *testing.T, words []string) string {
	version := must(strconv.Atoi(words[0]))(t)
	ignored := Ignored{Payloads: words[1] == "yes", IDs: words[1] == "ids"}
	replay := must(NewReplay(version, bytesOf(t, words[2]), ignored))(t)
	steps := []string{stepOf(t, replay, nil)}
	for _, item := range itemsIn(version, bytesOf(t, words[3])) {
		steps = append(steps, stepOf(t, replay, must(replay.Check(item))(t)))
	}
	end := "none"
	if left := must(replay.Finish())(t); left != nil {
		end = fmt.Sprintf("%s %d", kindOf(left.Kind), left.Index)
	}
	return strings.Join(steps, ", ") + "; " + end
}

// stepOf returns what is said of an item, and what comes next.
func stepOf(t *testing.T, replay *Replay, said *Mismatch) string {
	kind := "none"
	if said != nil {
		kind = kindOf(said.Kind)
	}
	expected, isThere, err := replay.Expected()
	if err != nil {
		t.Fatal(err)
	}
	if !isThere {
		return fmt.Sprintf("%s %d", kind, replay.Index())
	}
	return fmt.Sprintf("%s %d %d %s", kind, replay.Index(), expected.Offset(), expected.Type())
}

func restCase(t *testing.T, words []string) string {
	replay := must(NewReplay(must(strconv.Atoi(words[0]))(t), bytesOf(t, words[1]), Ignored{}))(t)
	return strconv.Itoa(replay.RecordedRest())
}

func newCase(t *testing.T, words []string) string {
	version, payload := must(strconv.Atoi(words[0]))(t), bytesOf(t, words[2])
	code, err := strconv.ParseUint(words[1], 10, 16)
	if err != nil {
		return "unknown"
	}
	message, err := NewMessage(version, uint16(code), payload)
	switch {
	case errors.Is(err, ErrUnknown):
		return noted(err, "unknown")
	case err != nil:
		return err.Error()
	case message.Version != version || message.Code != uint16(code) || !bytes.Equal(message.Payload, payload):
		t.Errorf("another message: %v", message)
	}
	came := itemsOf(t, words[0], digitsOf(message.Bytes()))
	if len(came) != 1 || came[0].String() != message.String() {
		t.Errorf("%v came as %v", message, came)
	}
	return fmt.Sprintf("%v, %x", message, message.Bytes())
}

func limitCase(t *testing.T, words []string) string {
	limit, err := strconv.ParseUint(words[0], 10, 32)
	if err != nil {
		return "out_of_range"
	}
	NewDecoder(strings.NewReader(""), LastVersion).SetMaxMessageSize(uint32(limit))
	return "ok"
}

func numberCase(t *testing.T, words []string) string {
	exact, isNumber := new(big.Int).SetString(words[1], 10)
	if !isNumber {
		return "no number"
	}
	number := int(exact.Int64())
	var err error
	switch {
	case !exact.IsInt64():
		return "unknown"
	case words[0] == "version":
		_, err = NewDecoder(strings.NewReader(""), number).Next()
	case words[0] == "schema":
		_, err = IsWellFormed(number, nil)
	case number != int(uint16(number)):
		return "unknown"
	default:
		_, err = TypeName(uint16(number))
	}
	if errors.Is(err, ErrUnknown) {
		return noted(err, "unknown")
	}
	return "known"
}

func nameCase(t *testing.T, words []string) string {
	var err error
	if words[0] == "type" {
		_, err = TypeCode(words[1])
	} else {
		_, err = SchemaNamed(words[1])
	}
	if err == nil {
		return "known"
	}
	_, meant, asks := strings.Cut(err.Error(), "; did you mean ")
	if !errors.Is(err, ErrUnknown) {
		t.Error(err)
	}
	if !asks {
		return noted(err, "unknown")
	}
	return noted(err, "unknown "+strings.Trim(meant, `"?`))
}

func TestErrorsOfAMessageThatDidNotCome(t *testing.T) {
	message := &Message{Version: 8, Code: CodeSetStateCommand, Payload: unhex(t, "0a0561")}
	_, err := message.JSON()
	var of *MessageError
	if !errors.As(err, &of) || of.Offset != -1 || of.Code != CodeSetStateCommand || of.Type != "SetStateCommand" {
		t.Error(err)
	}
	const text = "pendratsoa: Message.JSON: SetStateCommand: payload of 3 bytes is malformed"
	if err.Error() != text {
		t.Error(err)
	}
	if items := []Item{message, &UnknownCode{}, &Skipped{}}; items[0].Offset() != -1 || items[1].Offset() != -1 ||
		items[2].Offset() != -1 {
		t.Error("an item that did not come has an offset")
	}
}

// An error names the call that was made, also where that calls another function.
func TestErrorsNameTheCall(t *testing.T) {
	const malformed = "payload of 3 bytes is malformed"
	message := &Message{Version: 8, Code: CodeSetStateCommand, Payload: unhex(t, "0a0561")}
	signal := &Message{Version: 8, Code: CodeSignalNotification, Payload: message.Payload}
	suspension := &Message{Version: 6, Code: CodeSuspension, Payload: message.Payload}
	later := &Message{Version: 8, Code: CodeSuspension, Payload: message.Payload}
	for want, call := range map[string]func() error{
		"Message.Record: SetStateCommand: " + malformed: func() error {
			_, err := message.Record()
			return err
		},
		"As: SetStateCommand: " + malformed: func() error {
			_, _, err := As[*SetStateCommandMessage](message)
			return err
		},
		"Message.WriteTo: unknown protocol version 4 (5 to 9)": func() error {
			_, err := (&Message{Version: 4, Code: CodeEnd}).WriteTo(io.Discard)
			return err
		},
		"Message.JSON: SetStateCommand: " + malformed: func() error {
			_, err := message.JSON()
			return err
		},
		"Message.Canonical: SetStateCommand: " + malformed: func() error {
			_, err := message.Canonical()
			return err
		},
		"Message.Frame: Suspension: " + malformed: func() error {
			_, err := later.Frame(8)
			return err
		},
		"Message.AppendFrame: Suspension: " + malformed: func() error {
			_, err := suspension.AppendFrame(nil, 6)
			return err
		},
		"Message.WriteFrame: SetStateCommand: " + malformed: func() error {
			return message.WriteFrame(io.Discard, 8)
		},
		"Message.Notification: SignalNotification: " + malformed: func() error {
			_, err := signal.Notification()
			return err
		},
		"ReadNotification: " + malformed: func() error {
			_, err := ReadNotification(signal.Code, signal.Payload)
			return err
		},
		"Value.UnmarshalBinary: " + malformed: func() error {
			return new(Value).UnmarshalBinary(message.Payload)
		},
		"Message.Record: unknown protocol version 4 (5 to 9)": func() error {
			_, err := (&Message{Version: 4, Code: CodeEnd}).Record()
			return err
		},
		"NewMessage: unknown protocol version 4 (5 to 9)": func() error {
			_, err := NewMessage(4, CodeEnd, nil)
			return err
		},
		"NewMessageOf: unknown protocol version 4 (5 to 9)": func() error {
			_, err := NewMessageOf(4, new(EndMessage))
			return err
		},
		"NewMessageOf: protocol version 7 has no SuspensionMessageV6": func() error {
			_, err := NewMessageOf(7, new(SuspensionMessageV6))
			return err
		},
		"EndMessage.Frame: unknown protocol version 4 (5 to 9)": func() error {
			_, err := new(EndMessage).Frame(4)
			return err
		},
		"SuspensionMessage.Frame: unknown protocol version 4 (5 to 9)": func() error {
			_, err := new(SuspensionMessage).Frame(4)
			return err
		},
		"SuspensionMessageV6.AppendFrame: unknown protocol version 4 (5 to 9)": func() error {
			_, err := new(SuspensionMessageV6).AppendFrame(nil, 4)
			return err
		},
		"MessageFromJSON: JSON of 1 byte: not JSON at byte 1": func() error {
			_, err := MessageFromJSON(8, CodeEnd, []byte("{"))
			return err
		},
	} {
		if err := call(); err == nil || err.Error() != "pendratsoa: "+want {
			t.Errorf("%v, and not %s", err, want)
		}
	}
}

func TestIncompleteErrorSaysWhere(t *testing.T) {
	for digits, want := range map[string]string{
		input + "04":                            "an item at offset 17, after 1 byte of it",
		input + "0403":                          "SetStateCommand at offset 17, after 2 bytes of it",
		input + "040300":                        "SetStateCommand at offset 17, after 3 bytes of it",
		input + "0000":                          "Start at offset 17, after 2 bytes of it",
		input + "00080000000000":                "code 0x0008 at offset 17, after 7 bytes of it",
		input + "0403000000000003" + "0a05":     "SetStateCommand at offset 17, after 10 bytes of it",
		input + "fc01000000000001":              "CustomEntry(64513) at offset 17, after 8 bytes of it",
		"00030000000000000403000000000003" + "": "SetStateCommand at offset 8, after 8 bytes of it",
	} {
		_, err := all(NewDecoder(bytes.NewReader(unhex(t, digits)), 8))
		if err.Error() != "pendratsoa: the stream ended within "+want {
			t.Error(err)
		}
	}
}
