// Replay checks the replay that comes on the standard input by a recording: replay RECORDING [5..9]
//
// It prints each command that is the same. Where the replay leaves the recording it prints how, where both are, which
// command the recording has next, the text that the SDKs report, and the fields that differ. The status is 0 if both
// are the same, 1 if they differ, and 2 if either cannot be read: a file, a message of more than a mebibyte, a stream
// or a recording that ends within an item, a command that is malformed. A recording that ends within an item is
// compared up to that: the status is 1 if the replay differs from its whole items.
package main

import (
	"bufio"
	"errors"
	"fmt"
	"io"
	"os"
	"strconv"

	"pendratsoa.dev/pendratsoa"
)

const limit = 1 << 20

// The words for the kinds of a mismatch.
var kinds = map[pendratsoa.VerdictKind]string{
	pendratsoa.VerdictRecordedEnded:  "recorded_ended",
	pendratsoa.VerdictReplayedEnded:  "replayed_ended",
	pendratsoa.VerdictTypeMismatch:   "type_mismatch",
	pendratsoa.VerdictHeaderMismatch: "header_mismatch",
	pendratsoa.VerdictBadRecorded:    "bad_recorded",
	pendratsoa.VerdictBadReplayed:    "bad_replayed",
}

func main() {
	output := bufio.NewWriter(os.Stdout)
	status, err := run(os.Args[1:], os.Stdin, output)
	if err == nil {
		err = output.Flush()
	}
	if err != nil {
		output.Flush()
		fmt.Fprintln(os.Stderr, "replay:", err)
		status = 2
	}
	os.Exit(status)
}

// run checks a replay by the recording that the arguments say, and returns the status.
func run(arguments []string, input io.Reader, output io.Writer) (int, error) {
	if len(arguments) < 1 || len(arguments) > 2 {
		return 2, errors.New("usage: replay RECORDING [5..9]")
	}
	version, err := strconv.Atoi(append(arguments, "8")[1])
	if err != nil {
		return 2, err
	}
	recorded, err := os.ReadFile(arguments[0])
	if err != nil {
		return 2, err
	}
	replay, err := pendratsoa.NewReplay(version, recorded, pendratsoa.Ignored{})
	if err != nil {
		return 2, err
	}
	decoder := pendratsoa.NewDecoder(input, version)
	decoder.SetMaxMessageSize(limit)
	mismatch, err := check(replay, decoder, output)
	if err != nil {
		return 2, err
	}
	if mismatch == nil {
		fmt.Fprintf(output, "same, %d commands\n", replay.Index())
		return 0, nil
	}
	if mismatch.Kind == pendratsoa.VerdictBadRecorded || mismatch.Kind == pendratsoa.VerdictBadReplayed {
		return 2, show(mismatch, replay, output)
	}
	return 1, show(mismatch, replay, output)
}

// check prints each command that is the same, and returns the first mismatch.
func check(replay *pendratsoa.Replay, decoder *pendratsoa.Decoder, output io.Writer) (*pendratsoa.Mismatch, error) {
	for {
		item, err := decoder.Next()
		if err == io.EOF {
			return finish(replay)
		} else if err != nil {
			return nil, err
		}
		index := replay.Index()
		if mismatch, err := replay.Check(item); mismatch != nil || err != nil {
			return mismatch, err
		}
		if command, isMessage := item.(*pendratsoa.Message); isMessage && replay.Index() > index {
			fmt.Fprintf(output, "same %s at offset %d\n", command.Type(), command.Offset())
		}
	}
}

// finish returns what is left of the recording, or the error that the recording ends within an item.
func finish(replay *pendratsoa.Replay) (*pendratsoa.Mismatch, error) {
	left, err := replay.Finish()
	if rest := replay.RecordedRest(); left == nil && err == nil && rest > 0 {
		err = fmt.Errorf("the recording ends within an item, after %d of its bytes", rest)
	}
	return left, err
}

// show prints a mismatch.
func show(found *pendratsoa.Mismatch, replay *pendratsoa.Replay, output io.Writer) error {
	recorded := "-"
	if found.RecordedOffset >= 0 {
		recorded = strconv.FormatInt(found.RecordedOffset, 10)
	}
	fmt.Fprintf(output, "%s, command %d, recorded at offset %s, replayed at offset %d\n",
		kinds[found.Kind], found.Index, recorded, found.ReplayedOffset)
	following, isThere, err := replay.Expected()
	if isThere {
		fmt.Fprintf(output, "next %s at offset %d\n", following.Type(), following.Offset())
	}
	if found.Text != "" {
		fmt.Fprintln(output, found.Text)
	}
	for _, field := range found.Fields {
		fmt.Fprintf(output, "field %s: recorded %s, replayed %s\n", field.Name, field.Recorded, field.Replayed)
	}
	return err
}
