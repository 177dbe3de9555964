// Listing lists a stream on the standard input, of version 8 or of that which its argument says: one line per item,
// and at last the number of bytes that are in none.
package main

import (
	"bufio"
	"errors"
	"fmt"
	"io"
	"os"
	"strconv"

	"pendratsoa.dev/pendratsoa"
)

func main() {
	version, err := versionOf(os.Args[1:])
	if err != nil {
		fmt.Fprintln(os.Stderr, "usage: listing [5..9]")
		os.Exit(2)
	}
	if err := list(os.Stdin, version, os.Stdout); err != nil {
		fmt.Fprintln(os.Stderr, "listing:", err)
		os.Exit(1)
	}
}

// versionOf returns the version that the arguments say.
func versionOf(arguments []string) (int, error) {
	switch len(arguments) {
	case 0:
		return 8, nil
	case 1:
		return strconv.Atoi(arguments[0])
	}
	return 0, errors.New("too many arguments")
}

// list writes the lines of a stream.
func list(input io.Reader, version int, output io.Writer) error {
	lines := bufio.NewWriter(output)
	decoder := pendratsoa.NewDecoder(input, version)
	// the last line counts the bytes of an item that is not whole
	decoder.SetStrict(false)
	for {
		item, err := decoder.Next()
		if err == io.EOF {
			break
		} else if err != nil {
			return err
		}
		fmt.Fprintln(lines, item)
	}
	fmt.Fprintln(lines, "rest", decoder.Rest())
	return lines.Flush()
}
