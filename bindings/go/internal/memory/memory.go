// Package memory refuses requests for memory, for tests. It replaces the malloc, realloc and free of glibc, which the library
// calls, in each program that imports it. Its functions are about the thread that calls them, so lock the goroutine to its
// thread first.
package memory

// #include "memory.h"
import "C"

// CanRefuse reports whether requests can be refused. They can with glibc alone.
func CanRefuse() bool { return C.can_refuse() != 0 }

// Refuse says which of the next requests is refused: 1 is the first, and 0 is none.
func Refuse(request int) { C.refuse(C.long(request)) }

// Waiting returns which of the next requests is refused. It is 0 after that request.
func Waiting() int { return int(C.waiting()) }

// Held returns the number of blocks that were allocated, less the number of those that were freed.
func Held() int { return int(C.held()) }
