// Measures the package for Go against protobuf's own: measure FILE, which is messages.txt. A line is the record, the
// work, microseconds of CPU time here and there, and how many times as fast this package is. Protobuf's has no streams;
// it is used with the framing that a user writes, below.
package main

import (
	"bufio"
	"bytes"
	"encoding/binary"
	"encoding/hex"
	"fmt"
	"io"
	"math"
	"os"
	"strings"
	"syscall"

	"google.golang.org/protobuf/encoding/protojson"
	"google.golang.org/protobuf/proto"
	"peer/pb"
	"pendratsoa.dev/pendratsoa"
)

// A peer is a record here and there, and what is read of each.
type peer struct {
	ours       func() pendratsoa.Record
	theirs     func() proto.Message
	read       func(pendratsoa.Record) int
	readTheirs func(proto.Message) int
}

var peers = map[string]peer{
	"SetStateCommandMessage": {
		func() pendratsoa.Record { return new(pendratsoa.SetStateCommandMessage) },
		func() proto.Message { return new(pb.SetStateCommandMessage) },
		func(record pendratsoa.Record) int {
			one := record.(*pendratsoa.SetStateCommandMessage)
			return len(one.Key) + len(one.Value.Content)
		},
		func(record proto.Message) int {
			one := record.(*pb.SetStateCommandMessage)
			return len(one.Key) + len(one.Value.Content)
		},
	},
	"CallCommandMessage": {
		func() pendratsoa.Record { return new(pendratsoa.CallCommandMessage) },
		func() proto.Message { return new(pb.CallCommandMessage) },
		func(record pendratsoa.Record) int {
			one := record.(*pendratsoa.CallCommandMessage)
			return len(one.ServiceName) + len(one.Parameter)
		},
		func(record proto.Message) int {
			one := record.(*pb.CallCommandMessage)
			return len(one.ServiceName) + len(one.Parameter)
		},
	},
	"CallCompletionNotificationMessage": {
		func() pendratsoa.Record { return new(pendratsoa.CallCompletionNotificationMessage) },
		func() proto.Message { return new(pb.CallCompletionNotificationMessage) },
		func(record pendratsoa.Record) int {
			one := record.(*pendratsoa.CallCompletionNotificationMessage)
			return int(one.CompletionID) + len(one.Result.(*pendratsoa.Value).Content)
		},
		func(record proto.Message) int {
			one := record.(*pb.CallCompletionNotificationMessage)
			return int(one.CompletionId) + len(one.GetValue().Content)
		},
	},
}

// What is read is used: the compiler leaves none of it out.
var (
	sum  int
	kept []byte
)

func main() {
	text, err := os.ReadFile(os.Args[1])
	check(err)
	for _, line := range strings.Split(strings.TrimSpace(string(text)), "\n") {
		name, digits, _ := strings.Cut(line, " ")
		if name == "#" {
			continue
		}
		payload, err := hex.DecodeString(digits)
		check(err)
		measure(name, peers[name], payload)
	}
}

// measure prints the lines of a record.
func measure(name string, of peer, payload []byte) {
	ours, theirs := of.ours(), of.theirs()
	check(ours.UnmarshalBinary(payload))
	check(proto.Unmarshal(payload, theirs))
	encoded, err := ours.MarshalBinary()
	check(err)
	if of.read(ours) != of.readTheirs(theirs) || !bytes.Equal(encoded, payload) {
		panic(name)
	}
	show(name, "decode", func() {
		record := of.ours()
		check(record.UnmarshalBinary(payload))
		sum += of.read(record)
	}, func() {
		record := of.theirs()
		check(proto.Unmarshal(payload, record))
		sum += of.readTheirs(record)
	})
	show(name, "encode", func() {
		encoded, err := ours.MarshalBinary()
		check(err)
		sum += len(encoded)
	}, func() {
		encoded, err := proto.Marshal(theirs)
		check(err)
		sum += len(encoded)
	})
	measureStreams(name, of, payload)
	measureTexts(name, of, payload)
}

// A peerItem is a message as a framing by hand has it.
type peerItem struct {
	code, flags uint16
	payload     []byte
}

// A peerReader is a framing by hand. Each payload is read into the same buffer, since proto.Unmarshal copies.
type peerReader struct {
	input  *bufio.Reader
	header [8]byte
	buffer []byte
}

func newPeerReader(stream []byte) *peerReader {
	return &peerReader{input: bufio.NewReaderSize(bytes.NewReader(stream), chunk)}
}

// next returns the next message, whose payload is there until the next call, or io.EOF.
func (reader *peerReader) next() (peerItem, error) {
	header := reader.header[:]
	if _, err := io.ReadFull(reader.input, header); err != nil {
		return peerItem{}, err
	}
	length := binary.BigEndian.Uint32(header[4:])
	if length > limit {
		return peerItem{}, fmt.Errorf("a message has %d bytes", length)
	}
	if int(length) > len(reader.buffer) {
		reader.buffer = make([]byte, 2*length)
	}
	payload := reader.buffer[:length]
	if _, err := io.ReadFull(reader.input, payload); err == io.EOF {
		return peerItem{}, io.ErrUnexpectedEOF
	} else if err != nil {
		return peerItem{}, err
	}
	return peerItem{binary.BigEndian.Uint16(header), binary.BigEndian.Uint16(header[2:]), payload}, nil
}

// peerFrame returns the frame of a message, whose size is found once.
func peerFrame(code uint16, message proto.Message) ([]byte, error) {
	room := make([]byte, 8, 8+proto.Size(message))
	frame, err := proto.MarshalOptions{UseCachedSize: true}.MarshalAppend(room, message)
	if err != nil {
		return nil, err
	}
	binary.BigEndian.PutUint16(frame, code)
	binary.BigEndian.PutUint32(frame[4:], uint32(len(frame)-8))
	return frame, nil
}

// How many frames a stream has, how many bytes its reader has at a time, and the limit of a framing by hand.
const (
	frames = 1000
	chunk  = 1 << 16
	limit  = 1 << 24
)

// eachPeer gives each message of a stream to a function.
func eachPeer(stream []byte, take func(peerItem)) {
	reader := newPeerReader(stream)
	for {
		item, err := reader.next()
		if err == io.EOF {
			return
		}
		check(err)
		take(item)
	}
}

// each gives each item of a stream to a function.
func each(stream []byte, take func(pendratsoa.Item)) {
	decoder := pendratsoa.NewDecoder(bytes.NewReader(stream), 8)
	for {
		item, err := decoder.Next()
		if err == io.EOF {
			return
		}
		check(err)
		take(item)
	}
}

// measureStreams prints the lines of items, of frames and of a replay.
func measureStreams(name string, of peer, payload []byte) {
	ours, theirs := of.ours(), of.theirs()
	check(ours.UnmarshalBinary(payload))
	check(proto.Unmarshal(payload, theirs))
	framed := ours.(interface {
		Frame(version int) ([]byte, error)
	})
	frame, err := framed.Frame(8)
	check(err)
	code := binary.BigEndian.Uint16(frame)
	if other, err := peerFrame(code, theirs); err != nil || !bytes.Equal(frame, other) {
		panic(name)
	}
	stream := bytes.Repeat(frame, frames)
	show(name, "items", func() {
		each(stream, func(item pendratsoa.Item) { sum += len(item.(*pendratsoa.Message).Payload) })
	}, func() {
		// an item of the package has bytes of its own, and so has this one
		eachPeer(stream, func(item peerItem) {
			kept = append([]byte(nil), item.payload...)
			sum += len(kept)
		})
	}, frames)
	show(name, "items-read", func() {
		each(stream, func(item pendratsoa.Item) {
			record, err := item.(*pendratsoa.Message).Record()
			check(err)
			sum += of.read(record)
		})
	}, func() {
		eachPeer(stream, func(item peerItem) {
			record := of.theirs()
			check(proto.Unmarshal(item.payload, record))
			sum += of.readTheirs(record)
		})
	}, frames)
	show(name, "frame", func() {
		frame, err := framed.Frame(8)
		check(err)
		sum += len(frame)
	}, func() {
		frame, err := peerFrame(code, theirs)
		check(err)
		sum += len(frame)
	})
	// a replay of notifications has nothing to compare
	if strings.Contains(name, "Command") {
		show(name, "replay", func() { checkReplay(stream) }, func() { checkPeer(stream, of) }, frames)
	}
}

// checkReplay checks a replay that is the same as its recording.
func checkReplay(stream []byte) {
	replay, err := pendratsoa.NewReplay(8, stream, pendratsoa.Ignored{})
	check(err)
	each(stream, func(item pendratsoa.Item) {
		if mismatch, err := replay.Check(item); mismatch != nil || err != nil {
			panic("not the same")
		}
	})
	if left, err := replay.Finish(); left != nil || err != nil {
		panic("not the same")
	}
}

// checkPeer does the same by messages: bytes first, and one of two equal payloads is decoded, into the same message.
func checkPeer(stream []byte, of peer) {
	recorded := newPeerReader(stream)
	message := of.theirs()
	eachPeer(stream, func(item peerItem) {
		other, err := recorded.next()
		check(err)
		check(proto.Unmarshal(item.payload, message))
		if item.code != other.code || !bytes.Equal(item.payload, other.payload) {
			panic("not the same")
		}
	})
	if _, err := recorded.next(); err != io.EOF {
		panic("not the same")
	}
}

// measureTexts prints the lines of JSON.
func measureTexts(name string, of peer, payload []byte) {
	schema, err := pendratsoa.SchemaNamed(name)
	check(err)
	text, err := pendratsoa.ToJSON(schema, payload)
	check(err)
	again, err := pendratsoa.FromJSON(schema, text)
	check(err)
	if !bytes.Equal(again, payload) {
		panic(name)
	}
	show(name, "to-json", func() {
		text, err := pendratsoa.ToJSON(schema, payload)
		check(err)
		sum += len(text)
	}, func() {
		message := of.theirs()
		check(proto.Unmarshal(payload, message))
		text, err := protojson.Marshal(message)
		check(err)
		sum += len(text)
	})
	show(name, "from-json", func() {
		payload, err := pendratsoa.FromJSON(schema, text)
		check(err)
		sum += len(payload)
	}, func() {
		message := of.theirs()
		check(protojson.Unmarshal(text, message))
		payload, err := proto.Marshal(message)
		check(err)
		sum += len(payload)
	})
}

// How often a work is done in a round, and how many rounds there are.
const (
	count  = 20000
	rounds = 40
)

// show prints the line of a work, or of each part of it: of the fastest round here and there, which take turns.
func show(name, work string, ours, theirs func(), parts ...int) {
	per := 1
	for _, part := range parts {
		per *= part
	}
	first, second := round(ours, per), round(theirs, per)
	for i := 1; i < rounds; i++ {
		first, second = math.Min(first, round(ours, per)), math.Min(second, round(theirs, per))
	}
	fmt.Printf("go %s %s %.3f %.3f %.2f\n", name, work, first, second, second/first)
}

// round returns the microseconds that a part of a work takes in a round, with what the collector takes of it.
func round(work func(), per int) float64 {
	start := processorTime()
	for i := 0; i < count/per; i++ {
		work()
	}
	return (processorTime() - start) / count
}

// processorTime returns the microseconds of CPU time that the process has had.
func processorTime() float64 {
	var usage syscall.Rusage
	check(syscall.Getrusage(syscall.RUSAGE_SELF, &usage))
	return float64(usage.Utime.Nano()+usage.Stime.Nano()) / 1000
}

func check(err error) {
	if err != nil {
		panic(err)
	}
}
