// Proxy passes a journal on from one connection to another, with each state one greater: proxy VERSION HOST PORT
//
// It takes a connection at a port of this machine, which it prints, and opens one to HOST and PORT. All that it does
// not change it passes on byte for byte, also the beginning of a last item that is not whole. A state that it changes
// has only the fields of its type: unknown fields of the payload and ignored bits of the header are lost.
package main

import (
	"errors"
	"fmt"
	"io"
	"net"
	"os"
	"strconv"

	"pendratsoa.dev/pendratsoa"
)

func main() {
	if len(os.Args) != 4 {
		fmt.Fprintln(os.Stderr, "usage: proxy 5..9 HOST PORT")
		os.Exit(2)
	}
	if err := proxy(os.Args[1], net.JoinHostPort(os.Args[2], os.Args[3])); err != nil {
		fmt.Fprintln(os.Stderr, "proxy:", err)
		os.Exit(1)
	}
}

// proxy takes one connection, and passes the journal of a version on to an address.
func proxy(version, address string) error {
	number, err := strconv.Atoi(version)
	if err != nil {
		return err
	}
	listener, err := net.Listen("tcp", "127.0.0.1:0")
	if err != nil {
		return err
	}
	fmt.Println(listener.Addr().(*net.TCPAddr).Port)
	source, err := listener.Accept()
	if err != nil {
		return err
	}
	defer source.Close()
	target, err := net.Dial("tcp", address)
	if err != nil {
		return err
	}
	defer target.Close()
	return passOn(pendratsoa.NewDecoder(source, number), number, target)
}

// passOn writes the items of a decoder, as they are to be passed on at a version.
func passOn(decoder *pendratsoa.Decoder, version int, target io.Writer) error {
	for {
		item, err := decoder.Next()
		var incomplete *pendratsoa.IncompleteError
		if err == io.EOF {
			return nil
		} else if errors.As(err, &incomplete) {
			if _, failed := target.Write(decoder.Trailing()); failed != nil {
				return failed
			}
			return err
		} else if err != nil {
			return err
		}
		bytes, err := passedOn(item, version)
		if err != nil {
			return err
		}
		if _, err := target.Write(bytes); err != nil {
			return err
		}
	}
}

// passedOn returns what takes the place of an item of a version.
func passedOn(item pendratsoa.Item, version int) ([]byte, error) {
	command, ok, err := pendratsoa.As[*pendratsoa.SetStateCommandMessage](item)
	if err != nil {
		return nil, err
	}
	if !ok || command.Value == nil {
		return item.Bytes(), nil
	}
	number, err := strconv.Atoi(string(command.Value.Content))
	if err != nil {
		return nil, err
	}
	command.Value.Content = strconv.AppendInt(nil, int64(number)+1, 10)
	return command.Frame(version)
}
