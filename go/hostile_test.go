package pendratsoa

import (
	"bytes"
	"errors"
	"fmt"
	"io"
	"math/rand"
	"os"
	"reflect"
	"runtime/debug"
	"strconv"
	"strings"
	"sync"
	"testing"
	"testing/iotest"
)

// known returns whether an error is one that a call may return for its bytes.
func known(err error) bool {
	for _, target := range []error{nil, ErrMalformed, ErrUnknown, ErrNoID, ErrNoResult, ErrJSON} {
		if errors.Is(err, target) {
			return true
		}
	}
	return false
}

// randomBytes returns a few bytes that are half small, as those of payloads are.
func randomBytes(random *rand.Rand) []byte {
	data := make([]byte, random.Intn(64))
	for index := range data {
		data[index] = byte(random.Intn(256))
		if random.Intn(2) == 0 {
			data[index] &= 0x1f
		}
	}
	return data
}

// randomStream returns a stream of messages of random payloads, some bytes of which may be changed or absent.
func randomStream(random *rand.Rand) []byte {
	var stream []byte
	for index := random.Intn(5); index > 0; index-- {
		payload := randomBytes(random)
		header := []byte{byte(random.Intn(9)), byte(random.Intn(16)), byte(random.Intn(256)), 0, 0, 0, 0, byte(len(payload))}
		stream = append(append(stream, header...), payload...)
	}
	if len(stream) > 0 && random.Intn(2) == 0 {
		stream[random.Intn(len(stream))] ^= 1 << random.Intn(8)
		stream = stream[:random.Intn(len(stream)+1)]
	}
	return stream
}

// callAll makes each call with these bytes and numbers, and fails on an error that cannot be.
func callAll(t *testing.T, random *rand.Rand) {
	first, second := randomBytes(random), randomBytes(random)
	version, code, schema := 3+random.Intn(8), uint16(random.Intn(1<<16)), random.Intn(Schemas+2)-1
	if random.Intn(2) == 0 {
		code = uint16(random.Intn(16)) | 1<<10<<random.Intn(6)
	}
	kept := append(append([]byte{}, first...), second...)
	_, schemaErr := Schema(version, code)
	_, nameErr := TypeName(code)
	_, codeErr := TypeCode(string(first))
	_, headerErr := Header(version, code, random.Intn(1<<32))
	frame, frameErr := Frame(version, code, first)
	isWellFormed, formedErr := IsWellFormed(schema, first)
	canonical, canonicalErr := Canonical(schema, first)
	_, mergeErr := Merge(schema, first, second)
	json, jsonErr := ToJSON(schema, first)
	_, readErr := FromJSON(schema, second)
	_, notificationErr := ReadNotification(code, first)
	_, equalErr := HeaderEq(code, first, second, random.Intn(2) == 0)
	_, differenceErr := Difference(code, first, second)
	_, verdictErr := CompareJournals(version, randomStream(random), randomStream(random), random.Intn(2) == 0)
	for _, err := range []error{schemaErr, nameErr, codeErr, headerErr, frameErr, formedErr, canonicalErr, mergeErr,
		jsonErr, readErr, notificationErr, equalErr, differenceErr, verdictErr} {
		if !known(err) {
			t.Errorf("%d, %#04x, %d, %x, %x: %v", version, code, schema, first, second, err)
		}
	}
	if isWellFormed != (canonicalErr == nil) {
		t.Errorf("schema %d, %x: %v, and canonical %v", schema, first, isWellFormed, canonicalErr)
	}
	if again, err := Canonical(schema, canonical); canonicalErr == nil && (err != nil || !bytes.Equal(again, canonical)) {
		t.Errorf("schema %d, %x: canonical %x, and then %x, %v", schema, first, canonical, again, err)
	}
	if read, err := FromJSON(schema, json); jsonErr == nil && (err != nil || !bytes.Equal(read, canonical)) {
		t.Errorf("schema %d, %s: read as %x, %v, and not as %x", schema, json, read, err, canonical)
	}
	if frameErr == nil && frame == nil {
		t.Errorf("%d, %#04x, %x: no frame", version, code, first)
	}
	if !bytes.Equal(kept, append(first, second...)) {
		t.Error("bytes that were read are changed")
	}
}

func TestRandomBytes(t *testing.T) {
	random := rand.New(rand.NewSource(1))
	for call := 0; call < 20_000; call++ {
		callAll(t, random)
	}
}

func TestRandomStreams(t *testing.T) {
	random := rand.New(rand.NewSource(2))
	for count := 0; count < 5_000; count++ {
		version, stream := FirstVersion+random.Intn(5), randomStream(random)
		whole := NewDecoder(bytes.NewReader(stream), version)
		items, err := all(whole)
		if err != io.EOF && !errors.Is(err, io.ErrUnexpectedEOF) {
			t.Fatalf("version %d, %x: %v", version, stream, err)
		}
		split := NewDecoder(iotest.OneByteReader(bytes.NewReader(stream)), version)
		again, splitErr := all(split)
		if !reflect.DeepEqual(items, again) || fmt.Sprint(err) != fmt.Sprint(splitErr) || whole.Rest() != split.Rest() {
			t.Errorf("version %d, %x: %v, %v, and byte by byte %v, %v", version, stream, items, err, again, splitErr)
		}
	}
}

func TestGoroutines(t *testing.T) {
	stream := readFile(t, "examples/streams/recorded")
	want := describe(t, stream)
	var group sync.WaitGroup
	for index := 0; index < 8; index++ {
		group.Add(1)
		go func(seed int64) {
			defer group.Done()
			random := rand.New(rand.NewSource(seed))
			for call := 0; call < 500; call++ {
				callAll(t, random)
				if found := describe(t, stream); found != want {
					t.Errorf("%s\nand not\n%s", found, want)
					return
				}
			}
		}(int64(index))
	}
	group.Wait()
}

// describe returns what several calls return for a stream.
func describe(t *testing.T, stream []byte) string {
	var text strings.Builder
	items, err := all(NewDecoder(iotest.HalfReader(bytes.NewReader(stream)), 8))
	if err != io.EOF {
		t.Error(err)
	}
	for _, item := range items {
		message := item.(*Message)
		json, err := message.JSON()
		if err != nil {
			t.Error(err)
		}
		text.WriteString(message.Type() + " " + string(json) + "\n")
	}
	return text.String()
}

// resident returns how many bytes of memory the process holds. Free memory is none of them, which Go would give back to
// the system in its own time, and neither are the pages of files, which the system drops and reads again.
func resident(t *testing.T) int {
	debug.FreeOSMemory()
	status, err := os.ReadFile("/proc/self/statm")
	if err != nil {
		t.Skip("not run: ", err)
	}
	pages := strings.Fields(string(status))
	return (must(strconv.Atoi(pages[1]))(t) - must(strconv.Atoi(pages[2]))(t)) * os.Getpagesize()
}

// Each empty text once looked at all that come after it. These would take longer than Go gives a test.
func TestEmptyTexts(t *testing.T) {
	record := &Future{WaitingNamedSignals: make([]string, 400_000)}
	payload := must(record.MarshalBinary())(t)
	read := new(Future)
	if err := read.UnmarshalBinary(payload); err != nil || !reflect.DeepEqual(read, record) {
		t.Error(err)
	}
}

func TestMemoryDoesNotGrow(t *testing.T) {
	random := rand.New(rand.NewSource(3))
	stream := bytes.Repeat(readFile(t, "examples/streams/recorded"), 100)
	work := func(times int) {
		for ; times > 0; times-- {
			callAll(t, random)
			if times%100 == 0 {
				if items, err := all(NewDecoder(bytes.NewReader(stream), 8)); len(items) != 500 || err != io.EOF {
					t.Fatal(len(items), err)
				}
			}
		}
	}
	work(5_000)
	before := resident(t)
	work(50_000)
	if grown := resident(t) - before; grown > 16<<20 {
		t.Errorf("the process holds %d bytes more", grown)
	}
}
