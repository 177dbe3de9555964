package pendratsoa

import (
	"bytes"
	"encoding/binary"
	"errors"
	"io"
	"testing"
	"testing/iotest"
)

// Flags that no encoder sets, a long length of a field, a custom entry, an unknown code and what is skipped.
var faithful = map[int]string{
	8: "0400123400000009" + "72070a05696e707574" + "040300000000000b" + "0a81000a1a050a82007879" +
		"fc01ffff00000001ff" + "0008a5a500000000" + "0003000000000000",
	9: "0008a5a500000002" + "0003" + "fc01000000000000",
}

func TestItemsAreCopiedAsTheyCame(t *testing.T) {
	for version, digits := range faithful {
		stream := unhex(t, digits)
		for _, reader := range []io.Reader{bytes.NewReader(stream), iotest.OneByteReader(bytes.NewReader(stream))} {
			var copied, written bytes.Buffer
			NewDecoder(reader, version).All()(func(item Item, err error) bool {
				if err != nil {
					t.Fatal(err)
				}
				copied.Write(item.Bytes())
				count, err := item.WriteTo(&written)
				if count != int64(len(item.Bytes())) || err != nil {
					t.Errorf("%v: %d, %v", item, count, err)
				}
				return true
			})
			if !bytes.Equal(copied.Bytes(), stream) || !bytes.Equal(written.Bytes(), stream) {
				t.Errorf("at version %d the copy is %x", version, copied.Bytes())
			}
		}
	}
}

// The comment of Item says so.
func TestItemsBeginWithTheirCode(t *testing.T) {
	for version, digits := range faithful {
		for _, item := range itemsIn(version, unhex(t, digits)) {
			code, _, _ := partsOf(item)
			if found := binary.BigEndian.Uint16(item.Bytes()); found != code {
				t.Errorf("%v begins with %#04x", item, found)
			}
		}
	}
}

func TestBytesOfItemsThatDidNotCome(t *testing.T) {
	proposal := must(NewMessage(8, CodeProposeRunCompletion, unhex(t, "088100")))(t)
	for want, item := range map[string]Item{
		"0005800000000003088100": proposal,
		"0008000000000002":       &UnknownCode{Version: 8, Code: 8, Word: 8<<48 | 2},
		"00080000000000020003":   &Skipped{Version: 9, Code: 8, Word: 8<<48 | 2, Payload: []byte{0, 3}},
	} {
		if !bytes.Equal(item.Bytes(), unhex(t, want)) {
			t.Errorf("%v is %x", item, item.Bytes())
		}
	}
	none := &Message{Version: 8, Code: 8}
	if bytes := none.Bytes(); bytes != nil {
		t.Errorf("%x", bytes)
	}
	var written bytes.Buffer
	if count, err := none.WriteTo(&written); count != 0 || !errors.Is(err, ErrUnknown) || written.Len() != 0 {
		t.Errorf("%d, %v, %x", count, err, written.Bytes())
	}
}

func TestSuspensionsOfEachVersion(t *testing.T) {
	v6, v7 := "08010a0202030804", "22120a010122080a010222030a010122030a0103"
	flat, flattened := "0001000000000006"+"0a0401020304", "0001000000000006"+"0a0401020103"
	for _, c := range []struct {
		came    int
		payload string
		version int
		want    string
		err     error
	}{
		{6, v6, 6, flat, nil},
		{6, v6, 5, flat, nil},
		{5, v6, 6, flat, nil},
		{6, v6, 7, "", ErrUnknown},
		{5, v6, 9, "", ErrUnknown},
		{6, v6, 10, "", ErrUnknown},
		{6, "0a04", 6, "", ErrMalformed},
		{7, v7, 7, "0001000000000014" + v7, nil},
		{9, v7, 8, "0001000000000014" + v7, nil},
		{9, v7, 6, flattened, nil},
		{7, v7, 5, flattened, nil},
	} {
		message := &Message{Version: c.came, Code: CodeSuspension, Payload: unhex(t, c.payload)}
		want := unhex(t, c.want)
		frame, err := message.Frame(c.version)
		if !bytes.Equal(frame, want) || !errors.Is(err, c.err) {
			t.Errorf("of version %d at %d: %x, %v", c.came, c.version, frame, err)
		}
		appended, err := message.AppendFrame([]byte{7}, c.version)
		if !bytes.Equal(appended, append([]byte{7}, want...)) || !errors.Is(err, c.err) {
			t.Errorf("of version %d at %d: %x, %v", c.came, c.version, appended, err)
		}
	}
}

func TestFramesWithADestination(t *testing.T) {
	payload := unhex(t, "72070a05696e707574")
	message := must(NewMessage(8, CodeInputCommand, payload))(t)
	frame := unhex(t, input)
	for _, room := range []int{0, 1, len(frame), 100} {
		dst := append(make([]byte, 0, 1+room), 7)
		found := must(message.AppendFrame(dst, 8))(t)
		if !bytes.Equal(found, append([]byte{7}, frame...)) {
			t.Errorf("room %d: %x", room, found)
		}
		if (room >= len(frame)) != (&found[0] == &dst[0]) {
			t.Errorf("room %d: whether it is the same array", room)
		}
		dst, err := AppendFrame(dst, 8, CodeInputCommand, payload[:3])
		if !errors.Is(err, ErrMalformed) || !bytes.Equal(dst, []byte{7}) {
			t.Errorf("%x, %v", dst, err)
		}
	}
	var out bytes.Buffer
	if err := message.WriteFrame(&out, 9); err != nil || !bytes.Equal(out.Bytes(), frame) {
		t.Errorf("%x, %v", out.Bytes(), err)
	}
	message.Payload = payload[:3]
	if err := message.WriteFrame(&out, 9); !errors.Is(err, ErrMalformed) || out.Len() != len(frame) {
		t.Errorf("%x, %v", out.Bytes(), err)
	}
}

func TestAllItems(t *testing.T) {
	stream := unhex(t, input+input+"0a")
	decoder := NewDecoder(bytes.NewReader(stream), 8)
	var items, failures int
	for _, most := range []int{1, 9, 9} {
		decoder.All()(func(item Item, err error) bool {
			if err != nil {
				failures++
				if item != nil || !errors.Is(err, io.ErrUnexpectedEOF) {
					t.Errorf("%v, %v", item, err)
				}
				return true
			}
			items++
			return items < most
		})
	}
	if items != 2 || failures != 2 {
		t.Errorf("%d items, %d failures", items, failures)
	}
}

func TestAppendFrameOverItsPayload(t *testing.T) {
	record := &SetStateCommandMessage{Key: []byte("counter"), Value: &Value{Content: []byte("0123456789abcdefghij")}}
	payload := must(record.MarshalBinary())(t)
	want := must(Frame(8, CodeSetStateCommand, payload))(t)
	for at := 0; at < 12; at++ {
		buffer := make([]byte, 128)
		there := buffer[at : at+copy(buffer[at:], payload)]
		if found := must(AppendFrame(buffer[:0], 8, CodeSetStateCommand, there))(t); !bytes.Equal(found, want) {
			t.Errorf("at %d: %q", at, found)
		}
	}
}
