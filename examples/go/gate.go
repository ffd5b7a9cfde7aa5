// Package gate is a proved validator and sandbox for WebAssembly, over the library libgate.
//
//	if err := gate.Check(module); err != nil {
//		return err // gate.Explanation, which says where and why, or gate.ErrNoMemory
//	}
//
// A module that is called often is judged once:
//
//	add, err := gate.NewModule(module)
//	if err != nil {
//		return err
//	}
//	defer add.Close()
//	call, err := add.Call("add", gate.DefaultSettings(), gate.I32(40), gate.I32(2)) // call.Results[0] is gate.I32(42)
//
// An Instance goes on from call to call, and a host hands it bytes through its memory.
//
// The library is proved; this package is not. All functions may be called by many goroutines at once.
package gate

/*
#cgo CFLAGS: -I${SRCDIR} -I${SRCDIR}/../../include
#cgo LDFLAGS: -L${SRCDIR} -l:libgate.a
#include "gate.h"
*/
import "C"

import (
	"errors"
	"fmt"
	"unsafe"
)

// ErrNoMemory says that the library, or a call, was refused memory. Nothing was answered; the same question may be asked again.
var ErrNoMemory = errors.New("no memory")

// Interface is the number of the library's interface. This package is written for 1.
func Interface() uint32 {
	return uint32(C.gate_version())
}

// Revision is the number of what the library has beside its first functions. This package wants 2 at least.
func Revision() uint32 {
	return uint32(C.gate_revision())
}

// Build says which build the library is: `gate 0.2.0 (commit 0123456789ab, rattle-kit-13f)`.
func Build() string {
	var out [64]C.uint8_t // enough, as gate.h says
	var length C.size_t
	expectOK(C.gate_build(&out[0], C.size_t(len(out)), &length))
	return C.GoStringN((*C.char)(unsafe.Pointer(&out[0])), C.int(length))
}

// Check judges a module: nil where it is accepted, else its Explanation or ErrNoMemory.
func Check(module []byte) error {
	var verdict C.gate_verdict
	at, length := inC(module)
	return judged(C.gate_check(at, length, &verdict), module)
}

// judged is what a status says of a module.
func judged(status C.uint32_t, module []byte) error {
	switch status {
	case C.GATE_OK:
		return nil
	case C.GATE_MODULE_REFUSED:
		return refused(module)
	case C.GATE_NO_MEMORY:
		return ErrNoMemory
	}
	panic(beyondInterface("status", status))
}

// inC is a slice as C takes it, for one call.
func inC(bytes []byte) (*C.uint8_t, C.size_t) {
	if len(bytes) == 0 {
		return nil, 0
	}
	return (*C.uint8_t)(unsafe.Pointer(&bytes[0])), C.size_t(len(bytes))
}

// beyondInterface tells of a number that interface 1 does not have: another library was linked.
func beyondInterface(what string, number C.uint32_t) string {
	return fmt.Sprintf("libgate answers the %s %d, which interface 1 does not have", what, number)
}
