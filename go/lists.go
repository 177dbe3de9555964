package pendratsoa

/*
#include <stddef.h>
#include <stdint.h>
*/
import "C"

import (
	"reflect"
	"sync"
	"unsafe"
)

// The texts and bytes of a record's lists are copied, one after the other, since Go gives C no memory with pointers in
// it. All others are given to C where they are.
type lists struct {
	bytes   []byte
	lengths []C.size_t
}

// No texts and no bytes, which nothing is written to.
var noLists lists

var keptLists = sync.Pool{New: func() any { return new(lists) }}

// newLists returns what this many texts and bytes are copied to.
func newLists(count int) *lists {
	if count == 0 {
		return &noLists
	}
	return keptLists.Get().(*lists)
}

func (l *lists) text(text string) {
	l.lengths = append(l.lengths, C.size_t(len(text)))
	l.bytes = append(l.bytes, text...)
}

func (l *lists) data(data []byte) {
	l.lengths = append(l.lengths, C.size_t(len(data)))
	l.bytes = append(l.bytes, data...)
}

func (l *lists) lengthsAt() *C.size_t {
	if len(l.lengths) == 0 {
		return nil
	}
	return &l.lengths[0]
}

func (l *lists) count() int {
	return len(l.lengths)
}

// keep keeps the memory for the next record, unless it is much.
func (l *lists) keep() {
	if l == &noLists || cap(l.bytes) > keptBytes || cap(l.lengths) > keptBytes/8 {
		return
	}
	l.bytes = l.bytes[:0]
	l.lengths = l.lengths[:0]
	keptLists.Put(l)
}

// pointerToText returns where the bytes of a text are.
func pointerToText(text *string) *C.uint8_t {
	return (*C.uint8_t)(unsafe.Pointer((*reflect.StringHeader)(unsafe.Pointer(text)).Data))
}

func pointerToNumbers(numbers []uint32) *C.uint32_t {
	if len(numbers) == 0 {
		return nil
	}
	return (*C.uint32_t)(unsafe.Pointer(&numbers[0]))
}
