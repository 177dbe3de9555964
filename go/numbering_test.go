package pendratsoa

import (
	"bytes"
	"errors"
	"fmt"
	"io"
	"math"
	"math/rand"
	"strings"
	"sync"
	"testing"
	"testing/iotest"
)

// The types of fields in descriptors.
const (
	stringField  = 9
	messageField = 11
	bytesField   = 12
	uint32Field  = 13
)

// block returns a record of a length.
func block(number byte, content ...byte) []byte {
	out := []byte{number<<3 | 2}
	length := len(content)
	for ; length > 127; length /= 128 {
		out = append(out, byte(length%128+128))
	}
	return append(append(out, byte(length)), content...)
}

// fieldOf returns the descriptor of a field: its name, its number, its type, and the name of its message. Its name in
// JSON is that of protoc.
func fieldOf(name string, number, kind byte, of string) []byte {
	out := append(block(1, []byte(name)...), 0x18, number, 0x20, 1, 0x28, kind)
	if kind == messageField {
		out = append(out, block(6, []byte("."+of)...)...)
	}
	words := strings.Split(name, "_")
	for i, word := range words[1:] {
		words[1+i] = strings.ToUpper(word[:1]) + word[1:]
	}
	return block(2, append(out, block(10, []byte(strings.Join(words, ""))...)...)...)
}

func messageOf(name string, fields ...[]byte) []byte {
	return block(4, append(block(1, []byte(name)...), bytes.Join(fields, nil)...)...)
}

// setOf returns a descriptor set of one file.
func setOf(messages ...[]byte) []byte {
	file := append(block(1, []byte("a.proto")...), bytes.Join(messages, nil)...)
	return block(1, append(file, block(12, []byte("proto3")...)...)...)
}

// theirSet returns a set whose messages have other numbers, and a field that only they have.
func theirSet() []byte {
	return setOf(
		messageOf("Value", fieldOf("content_type", 2, stringField, ""), fieldOf("content", 14, bytesField, "")),
		messageOf("SetStateCommandMessage", fieldOf("key", 3, bytesField, ""), fieldOf("name", 12, stringField, ""),
			fieldOf("value", 30, messageField, "Value")),
		messageOf("Pause", fieldOf("result_completion_id", 4, uint32Field, "")),
	)
}

func numberingOf(t testing.TB, set []byte, renames map[string]string) *Numbering {
	numbering, err := NewNumbering(set, renames)
	if err != nil {
		t.Fatal(err)
	}
	return numbering
}

// A command at the numbers of the protocol, and at those of the set.
const (
	ours   = "\n\x01a\x1a\x03\n\x011b\x01n"
	theirs = "\x1a\x01ab\x01n\xf2\x01\x03r\x011"
)

// streamAt returns a stream at either numbers: commands, one with flags that no encoder sets, a custom entry, an
// unknown code, an end, and the beginning of a header.
func streamAt(payload string) []byte {
	length := string(rune(len(payload)))
	return []byte("\x04\x03\x00\x00\x00\x00\x00" + length + payload + "\xfc\x01\xff\xff\x00\x00\x00\x02\x0a\x01" +
		"\x00\x08\xa5\xa5\x00\x00\x00\x00" + "\x00\x03\x00\x00\x00\x00\x00\x00" +
		"\x04\x03\x12\x34\x00\x00\x00" + length + payload + "\x04\x03\x00")
}

func TestNumberingOfPayloads(t *testing.T) {
	numbering := numberingOf(t, theirSet(), nil)
	read, write := numbering.ReadPayload, numbering.WritePayload
	for _, test := range []struct {
		by            func(int, []byte) ([]byte, error)
		schema        int
		payload, want string
	}{
		{read, SchemaSetStateCommandMessage, theirs, ours},
		{write, SchemaSetStateCommandMessage, ours, theirs},
		// a field that only the set has, one that only the protocol has, and what is in no message of the set
		{read, SchemaValue, "\x12\x01tr\x01x", "\n\x01x"},
		{read, SchemaValue, "\n\x01x", ""},
		{write, SchemaSleepCommandMessage, "\x08\x05", ""},
	} {
		if found, err := test.by(test.schema, []byte(test.payload)); err != nil || string(found) != test.want {
			t.Errorf("%q: %q, %v", test.payload, found, err)
		}
	}
	for _, payload := range []string{"\x1a", "\x1a\x02a", "\xf2\x01\x01r", "\xf0\x01\x01", "\x00"} {
		_, err := read(SchemaSetStateCommandMessage, []byte(payload))
		want := fmt.Sprintf("pendratsoa: Numbering.ReadPayload: payload of %s is malformed",
			byteCount(len(payload)))
		if !errors.Is(err, ErrMalformed) || err.Error() != want {
			t.Errorf("%q: %v", payload, err)
		}
	}
	for _, schema := range []int{-1, Schemas, math.MaxUint32, math.MaxInt} {
		if _, err := read(schema, nil); !errors.Is(err, ErrUnknown) {
			t.Errorf("schema %d: %v", schema, err)
		}
	}
}

func TestNumberingOfStreams(t *testing.T) {
	numbering := numberingOf(t, theirSet(), nil)
	if found, err := numbering.ReadStream(8, streamAt(theirs)); err != nil || !bytes.Equal(found, streamAt(ours)) {
		t.Errorf("%x, %v", found, err)
	}
	if found, err := numbering.WriteStream(8, streamAt(ours)); err != nil || !bytes.Equal(found, streamAt(theirs)) {
		t.Errorf("%x, %v", found, err)
	}
	for _, stream := range []string{"", "\x00\x08\x00\x00\x00\x00\x00\x02\x0a\x01"} {
		if found, err := numbering.ReadStream(9, []byte(stream)); err != nil || string(found) != stream {
			t.Errorf("%x, %v", found, err)
		}
	}
	for _, version := range []int{-1, 4, 10, math.MaxInt} {
		if _, err := numbering.WriteStream(version, nil); !errors.Is(err, ErrUnknown) {
			t.Errorf("version %d: %v", version, err)
		}
	}
	_, err := numbering.ReadStream(8, append(unhex(t, input), streamAt("\x1a")...))
	want := fmt.Sprintf("pendratsoa: Numbering.ReadStream: SetStateCommand at offset %d: payload of 1 byte "+
		"is malformed", len(unhex(t, input)))
	if !errors.Is(err, ErrMalformed) || err.Error() != want {
		t.Error(err)
	}
}

func TestDumpHasAllFieldsOfTheSet(t *testing.T) {
	numbering := numberingOf(t, theirSet(), nil)
	for stream, wanted := range map[string][]string{
		"\x04\x03\x00\x00\x00\x00\x00\x09\xf2\x01\x06\x12\x01tr\x011\x04": {
			`"message":{"value":{"contentType":"t","content":"MQ=="}}`, `"rest":1`,
		},
		// what is malformed by the set is said of its item
		"\x04\x03\x00\x00\x00\x00\x00\x01\x1a": {`"malformed":true`, `"rest":0`},
	} {
		found, err := numbering.Dump(8, []byte(stream))
		lines := strings.Split(strings.TrimSuffix(string(found), "\n"), "\n")
		if err != nil || len(lines) != len(wanted) {
			t.Fatalf("%s, %v", found, err)
		}
		for i, line := range lines {
			if !strings.Contains(line, wanted[i]) {
				t.Errorf("%s, and not %s", line, wanted[i])
			}
		}
	}
	for _, version := range []int{-1, 4, 10, math.MaxInt} {
		if _, err := numbering.Dump(version, nil); !errors.Is(err, ErrUnknown) {
			t.Errorf("version %d: %v", version, err)
		}
	}
}

func TestNumberingOfFrames(t *testing.T) {
	numbering := numberingOf(t, theirSet(), nil)
	want := "\x04\x03\x00\x00\x00\x00\x00\x0c" + theirs
	// the second one is not canonical
	for _, payload := range []string{ours, "b\x01n\n\x01a\x1a\x03\n\x011"} {
		if found, err := numbering.Frame(8, CodeSetStateCommand, []byte(payload)); err != nil || string(found) != want {
			t.Errorf("%q, %v", found, err)
		}
		dst, err := numbering.AppendFrame([]byte("7"), 8, CodeSetStateCommand, []byte(payload))
		if err != nil || string(dst) != "7"+want {
			t.Errorf("%q, %v", dst, err)
		}
	}
	command := &SetStateCommandMessage{Key: []byte("a"), Value: &Value{Content: []byte("1")}, Name: "n"}
	own, err := command.Frame(8)
	if err != nil {
		t.Fatal(err)
	}
	if found, err := numbering.WriteStream(8, own); err != nil || string(found) != want {
		t.Errorf("%q, %v", found, err)
	}
	for _, test := range []struct {
		version int
		code    uint16
		payload string
		want    error
	}{
		{4, CodeSetStateCommand, "", ErrUnknown},
		{8, 0xfc01, "", ErrUnknown},
		{8, CodeSetStateCommand, "\n", ErrMalformed},
	} {
		dst, err := numbering.AppendFrame([]byte("7"), test.version, test.code, []byte(test.payload))
		if !errors.Is(err, test.want) || string(dst) != "7" {
			t.Errorf("%q, %v", dst, err)
		}
	}
}

func TestDecoderWithNumbering(t *testing.T) {
	numbering := numberingOf(t, theirSet(), nil)
	stream := streamAt(theirs)
	own, _ := all(NewDecoder(bytes.NewReader(streamAt(ours)), 8))
	for name, reader := range map[string]io.Reader{
		"whole":        bytes.NewReader(stream),
		"byte by byte": iotest.OneByteReader(bytes.NewReader(stream)),
		"half":         iotest.HalfReader(bytes.NewReader(stream)),
	} {
		decoder := NewDecoder(reader, 8)
		decoder.SetNumbering(numbering)
		items, err := all(decoder)
		if !errors.Is(err, io.ErrUnexpectedEOF) || len(items) != len(own) {
			t.Fatalf("%s: %d items, %v", name, len(items), err)
		}
		var copied []byte
		for i, item := range items {
			if item.Offset() != int64(len(copied)) || item.String() != own[i].String() {
				t.Errorf("%s: %v at %d, %v", name, item, item.Offset(), own[i])
			}
			copied = append(copied, item.Bytes()...)
			command, ok, err := As[*SetStateCommandMessage](item)
			if err != nil || ok && (string(command.Value.Content) != "1" || command.Name != "n") {
				t.Errorf("%s: %v, %v", name, command, err)
			}
		}
		if copied = append(copied, decoder.Trailing()...); !bytes.Equal(copied, stream) {
			t.Errorf("%s: %x", name, copied)
		}
	}
	decoder := NewDecoder(bytes.NewReader(streamAt(ours)), 8)
	decoder.SetNumbering(numbering)
	decoder.SetNumbering(nil)
	if items, _ := all(decoder); len(items) != len(own) || items[0].String() != own[0].String() {
		t.Errorf("without a numbering: %v", items)
	}
}

func TestDecoderGoesOnAfterPayloadThatCannotBeRead(t *testing.T) {
	end, bad := "\x00\x03\x00\x00\x00\x00\x00\x00", "\x04\x03\x00\x00\x00\x00\x00\x01\x1a"
	decoder := NewDecoder(strings.NewReader(end+bad+end), 8)
	decoder.SetNumbering(numberingOf(t, theirSet(), nil))
	if _, err := decoder.Next(); err != nil {
		t.Error(err)
	}
	item, err := decoder.Next()
	var of *MessageError
	if item != nil || !errors.Is(err, ErrMalformed) || !errors.As(err, &of) || of.Offset != 8 {
		t.Errorf("%v, %v", item, err)
	}
	if of.Type != "SetStateCommand" || string(decoder.Trailing()) != end {
		t.Errorf("%v, %x", of, decoder.Trailing())
	}
	if item, err = decoder.Next(); err != nil || item.Offset() != int64(len(end+bad)) {
		t.Errorf("%v, %v", item, err)
	}
	if _, err = decoder.Next(); err != io.EOF {
		t.Error(err)
	}
}

func TestLimitWithNumbering(t *testing.T) {
	for limit, isTaken := range map[uint32]bool{11: false, 12: true} {
		decoder := NewDecoder(bytes.NewReader(streamAt(theirs)), 8)
		decoder.SetNumbering(numberingOf(t, theirSet(), nil))
		decoder.SetMaxMessageSize(limit)
		if _, err := decoder.Next(); (err == nil) != isTaken {
			t.Errorf("limit %d: %v", limit, err)
		}
	}
}

func TestReplayWithNumbering(t *testing.T) {
	numbering := numberingOf(t, theirSet(), nil)
	one := "\x04\x03\x00\x00\x00\x00\x00\x0c" + theirs
	recorded, err := numbering.ReadStream(8, []byte(strings.Repeat(one, 3)))
	if err != nil {
		t.Fatal(err)
	}
	for replayed, want := range map[string]Mismatch{
		one + "\x04\x03\x00\x00\x00\x00\x00\x03\x1a\x01b" + one: {Kind: VerdictHeaderMismatch, Index: 1},
		one + one: {Kind: VerdictReplayedEnded, Index: 2},
	} {
		replay, err := NewReplay(8, recorded, Ignored{})
		if err != nil {
			t.Fatal(err)
		}
		decoder := NewDecoder(strings.NewReader(replayed), 8)
		decoder.SetNumbering(numbering)
		items, _ := all(decoder)
		var found *Mismatch
		for _, item := range items {
			mismatch, err := replay.Check(item)
			if err != nil {
				t.Error(err)
			}
			if mismatch != nil {
				found = mismatch
			}
		}
		if found == nil {
			if found, err = replay.Finish(); err != nil || found == nil {
				t.Fatal(found, err)
			}
		}
		offset := int64(want.Index) * int64(len(one))
		if found.Kind != want.Kind || found.Index != want.Index || found.ReplayedOffset != offset {
			t.Errorf("%+v", found)
		}
	}
}

func TestRenamesAndRejectedSets(t *testing.T) {
	numbering := numberingOf(t, theirSet(), map[string]string{"Pause": "SleepCommandMessage"})
	if found, err := numbering.ReadPayload(SchemaSleepCommandMessage, []byte(" \x07")); string(found) != "X\x07" {
		t.Errorf("%q, %v", found, err)
	}
	if text := numbering.Text(); !strings.Contains(text, "renumbered") || !strings.Contains(text, "the same") {
		t.Error(text)
	}
	fields := append(fieldOf("key", 3, bytesField, ""), fieldOf("name", 3, stringField, "")...)
	twice := setOf(messageOf("SetStateCommandMessage", fields))
	renames := func(theirs, ours string) map[string]string { return map[string]string{theirs: ours} }
	for _, test := range []struct {
		set     []byte
		renames map[string]string
		reason  NumberingReason
	}{
		{twice, nil, ReasonNoSet},
		{[]byte("\n\x02a"), nil, ReasonNoSet},
		{[]byte("syntax = \"proto3\";"), nil, ReasonNoSet},
		{theirSet(), renames("Paus", "SleepCommandMessage"), ReasonNoRename},
		{theirSet(), renames("Pause", "SlepCommandMessage"), ReasonNoRename},
		{theirSet(), renames("Pause", ""), ReasonNoRename},
		{theirSet(), renames("", ""), ReasonNoRename},
		{theirSet(), renames("Pause", "SleepCommandMessage\n"), ReasonNoRename},
		{theirSet(), renames("Pause=SleepCommandMessage\nPause", "SleepCommandMessage"), ReasonNoRename},
	} {
		numbering, err := NewNumbering(test.set, test.renames)
		var found *NumberingError
		if numbering != nil || !errors.Is(err, ErrNumbering) || !errors.As(err, &found) {
			t.Errorf("%v, %v", numbering, err)
		} else if found.Reason != test.reason || found.Text == "" || !strings.HasSuffix(err.Error(), found.Text) {
			t.Errorf("%v: %v", found.Reason, err)
		}
	}
	names := []string{"NumberingReason(0)", "ReasonNoSet", "ReasonNoRename", "NumberingReason(3)"}
	for reason, name := range names {
		if NumberingReason(reason).String() != name {
			t.Errorf("%v", NumberingReason(reason))
		}
	}
}

func TestEmptySetHasNoField(t *testing.T) {
	_, err := NewNumbering(nil, nil)
	var found *NumberingError
	if !errors.As(err, &found) || found.Reason != ReasonNoSet || found.Text != "no field of the protocol's messages" {
		t.Error(err)
	}
}

func TestTableThatNeedsMoreRoom(t *testing.T) {
	for _, count := range []int{0, renumberingRoom, renumberingRoom + 1, 10 * renumberingRoom} {
		calls := 0
		table, result := renumberings(func(table []renumbering) int64 {
			calls++
			for i := 0; i < len(table) && i < count; i++ {
				table[i][renumberingNumber] = uint64(i)
			}
			return int64(count)
		})
		if len(table) != count || result != 0 || calls != 1 && count <= renumberingRoom {
			t.Errorf("%d entries of %d, %d, after %d calls", len(table), count, result, calls)
		}
		for i, entry := range table {
			if entry[renumberingNumber] != uint64(i) {
				t.Errorf("entry %d: %v", i, entry)
			}
		}
	}
	if table, result := renumberings(func([]renumbering) int64 { return outOfMemory }); table != nil || result >= 0 {
		t.Errorf("%v, %d", table, result)
	}
}

func TestAnyBytesAsSetOrPayload(t *testing.T) {
	random := rand.New(rand.NewSource(1))
	for i := 0; i < 300; i++ {
		set := theirSet()
		for j := random.Intn(3); j >= 0; j-- {
			set[random.Intn(len(set))] = byte(random.Intn(256))
		}
		set = set[:1+random.Intn(len(set))]
		numbering, err := NewNumbering(set, nil)
		if err != nil {
			if !errors.Is(err, ErrNumbering) {
				t.Error(err)
			}
			continue
		}
		for schema := 0; schema < Schemas; schema++ {
			_, readErr := numbering.ReadPayload(schema, set)
			_, writeErr := numbering.WritePayload(schema, set)
			for _, err := range []error{readErr, writeErr} {
				if err != nil && !errors.Is(err, ErrMalformed) {
					t.Error(err)
				}
			}
		}
	}
}

func TestGoroutinesShareANumbering(t *testing.T) {
	numbering := numberingOf(t, theirSet(), nil)
	var group sync.WaitGroup
	for i := 0; i < 8; i++ {
		group.Add(1)
		go func() {
			defer group.Done()
			for j := 0; j < 100; j++ {
				if found, err := numbering.ReadStream(8, streamAt(theirs)); !bytes.Equal(found, streamAt(ours)) {
					t.Errorf("%x, %v", found, err)
				}
			}
		}()
	}
	group.Wait()
}

// Without a table each field would be left out, so a numbering that nothing has made is an error.
func TestNumberingThatWasNotMade(t *testing.T) {
	var zero Numbering
	payload, stream := []byte(ours), unhex(t, input)
	decoder := NewDecoder(bytes.NewReader(stream), 8)
	decoder.SetNumbering(&zero)
	for call, do := range map[string]func() ([]byte, error){
		"Numbering.ReadPayload":  func() ([]byte, error) { return zero.ReadPayload(SchemaSetStateCommandMessage, payload) },
		"Numbering.WritePayload": func() ([]byte, error) { return zero.WritePayload(SchemaSetStateCommandMessage, payload) },
		"Numbering.ReadStream":   func() ([]byte, error) { return zero.ReadStream(8, stream) },
		"Numbering.WriteStream":  func() ([]byte, error) { return zero.WriteStream(8, stream) },
		"Numbering.Dump":         func() ([]byte, error) { return zero.Dump(8, stream) },
		"Numbering.Frame":        func() ([]byte, error) { return zero.Frame(8, CodeSetStateCommand, payload) },
		"Decoder.Next": func() ([]byte, error) {
			_, err := decoder.Next()
			return nil, err
		},
	} {
		found, err := do()
		if len(found) > 0 {
			t.Errorf("%s: %x", call, found)
		}
		wantError(t, err, ErrNumbering, "pendratsoa: "+call+": a numbering that NewNumbering has not made: "+
			ErrNumbering.Error())
	}
}
