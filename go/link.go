package pendratsoa

// The library is where pkg-config finds it. A release has another file in place of this one, and the library with it.

/*
#cgo pkg-config: pendratsoa
*/
import "C"
