// Package pendratsoa speaks the journal protocol of the Restate SDKs: the items of a stream, frames, payloads and
// their JSON, notifications, and commands and journals compared. It calls the library for C of the same name by cgo,
// each of whose calls is proved to do what its contract says.
//
//	decoder := pendratsoa.NewDecoder(connection, 8)
//	for {
//		item, err := decoder.Next()
//		if err == io.EOF {
//			break
//		} else if err != nil {
//			return err
//		}
//		if message, ok := item.(*pendratsoa.Message); ok {
//			fmt.Println(message.Type(), len(message.Payload))
//		}
//	}
//
// # Numbers
//
// Versions go from FirstVersion to LastVersion. A type is given by its code (CodeSleepCommand), a schema by its number
// (SchemaSleepCommandMessage). A version or a schema that the library does not know, negative or as great as an int may
// be, is ErrUnknown, and is never cut to fit.
//
// # Errors
//
// An error of a call is an *Error, which names the function or method and the argument, and wraps one of the variables
// such as ErrMalformed. A *FieldError, a *MessageTooLongError and an *IncompleteError are none, and wrap one of those
// too, or io.ErrUnexpectedEOF:
//
//	_, err := pendratsoa.Canonical(pendratsoa.SchemaErrorMessage, payload)
//	if errors.Is(err, pendratsoa.ErrMalformed) {
//		// the bytes are not those of an ErrorMessage
//	}
//
// An error of the payload of a Message is a *MessageError besides, which says of which message of the stream it is.
//
// # Memory and goroutines
//
// The library for C keeps nothing between calls. All memory is Go's, and what a function returns is the caller's. Any
// number of goroutines may call the functions and methods at once, those of one Decoder or Replay one at a time.
package pendratsoa
