package gate

// #include "gate.h"
import "C"

import (
	"errors"
	"fmt"
	"strconv"
	"strings"
	"unsafe"
)

// Call is what a call gave and cost.
type Call struct {
	Results []Value // the lowest first
	Fuel    uint32  // the start function included; also where the call was stopped, and 0 where nothing ran
}

// ErrResults says that a call did not give the one number that One was asked for.
var ErrResults = errors.New("not the one number that is asked for")

// Number is what One may be asked for: a number of either width, with a sign or without one.
type Number interface {
	~int32 | ~uint32 | ~int64 | ~uint64
}

// One is the number of a call that gave one, of that width. It takes what Call gives:
//
//	address, err := gate.One[uint32](instance.Call("alloc", settings, length))
//
// The error is that of the call, or wraps ErrResults.
func One[T Number](call Call, err error) (T, error) {
	var number T
	if err != nil {
		return number, err
	}
	if len(call.Results) == 1 {
		switch result := call.Results[0].(type) {
		case I32:
			if unsafe.Sizeof(number) == 4 {
				return T(result), nil
			}
		case I64:
			if unsafe.Sizeof(number) == 8 {
				return T(result), nil
			}
		}
	}
	return 0, fmt.Errorf("%w: %v", ErrResults, call.Results)
}

// End is why a call was stopped or did not run, where that needs no further word.
type End uint32

// Why a call was stopped, or did not run.
const (
	OutOfFuel    End = C.GATE_OUT_OF_FUEL   // the next charge would pass Settings.Fuel
	OutOfFrames  End = C.GATE_OUT_OF_FRAMES // the next entry would pass Settings.Frames
	NoExport     End = C.GATE_NO_EXPORT     // nothing of that name is exported
	NotAFunction End = C.GATE_NOT_A_FUNCTION
	BadArguments End = C.GATE_BAD_ARGUMENTS // they are not of the function's type
)

// Trap is why a call trapped.
type Trap uint32

// The traps.
const (
	Unreachable          Trap = C.GATE_UNREACHABLE
	OutOfBounds          Trap = C.GATE_OUT_OF_BOUNDS
	UndefinedElement     Trap = C.GATE_UNDEFINED_ELEMENT
	UninitializedElement Trap = C.GATE_UNINITIALIZED_ELEMENT
	TypeMismatch         Trap = C.GATE_TYPE_MISMATCH
	DivideByZero         Trap = C.GATE_DIVIDE_BY_ZERO
	IntegerOverflow      Trap = C.GATE_INTEGER_OVERFLOW
)

// Reason is why no instance can be made: the first that holds.
type Reason uint32

// The reasons.
const (
	Imports        Reason = C.GATE_HAS_IMPORTS
	Floats         Reason = C.GATE_HAS_FLOATS
	TableLimit     Reason = C.GATE_TABLE_LIMIT     // the table's minimum is above 65,536
	MemoryLimit    Reason = C.GATE_MEMORY_LIMIT    // the memory's minimum is above Settings.Pages
	ElementOutside Reason = C.GATE_ELEMENT_OUTSIDE // NotStarted.Segment ends outside the table
	DataOutside    Reason = C.GATE_DATA_OUTSIDE    // NotStarted.Segment ends outside the memory
)

// NotStarted says that no instance can be made.
type NotStarted struct {
	Reason  Reason
	Segment uint32 // the least segment of its kind that ends outside, from 0; else 0
}

var endTexts = map[End]string{
	OutOfFuel: "out-of-fuel", OutOfFrames: "out-of-frames",
	NoExport: "no-export", NotAFunction: "not-a-function", BadArguments: "bad-arguments",
}

var trapTexts = [...]string{
	Unreachable: "unreachable", OutOfBounds: "out-of-bounds",
	UndefinedElement: "undefined-element", UninitializedElement: "uninitialized-element", TypeMismatch: "type-mismatch",
	DivideByZero: "divide-by-zero", IntegerOverflow: "integer-overflow",
}

var reasonTexts = [...]string{
	Imports: "imports", Floats: "floats", TableLimit: "table-limit", MemoryLimit: "memory-limit",
	ElementOutside: "element-outside", DataOutside: "data-outside",
}

func (e End) Error() string { return endTexts[e] }

func (t Trap) Error() string { return "trap " + trapTexts[t] }

func (n NotStarted) Error() string {
	if n.Reason >= ElementOutside {
		return fmt.Sprintf("not-started %s %d", reasonTexts[n.Reason], n.Segment)
	}
	return "not-started " + reasonTexts[n.Reason]
}

// endOfWords is the error whose text a line of a report has; nil where it is none.
func endOfWords(words string) error {
	if words == "no-memory" {
		return ErrNoMemory
	}
	for end, text := range endTexts {
		if text == words {
			return end
		}
	}
	for trap := range trapTexts {
		if Trap(trap).Error() == words {
			return Trap(trap)
		}
	}
	return notStartedOfWords(words)
}

func notStartedOfWords(words string) error {
	place := words[strings.LastIndex(words, " ")+1:]
	// Where no number stands at the end, it is 0, and belongs to no reason but the last two.
	segment, _ := strconv.ParseUint(place, 10, 32)
	for reason := range reasonTexts {
		if start := (NotStarted{Reason(reason), uint32(segment)}); start.Error() == words {
			return start
		}
	}
	return nil
}

// endOf is how a call ended: nil where it gave values.
func endOf(ended *C.gate_call) error {
	switch ended.end {
	case C.GATE_VALUES:
		return nil
	case C.GATE_TRAP:
		return trapOf(ended.reason)
	case C.GATE_OUT_OF_FUEL, C.GATE_OUT_OF_FRAMES, C.GATE_NO_EXPORT, C.GATE_NOT_A_FUNCTION, C.GATE_BAD_ARGUMENTS:
		return End(ended.end)
	case C.GATE_NOT_STARTED:
		return notStartedOf(ended.reason, ended.place)
	case C.GATE_CALL_NO_MEMORY:
		return ErrNoMemory
	}
	panic(beyondInterface("end", ended.end))
}

func trapOf(reason C.uint32_t) error {
	if int(reason) >= len(trapTexts) {
		panic(beyondInterface("trap", reason))
	}
	return Trap(reason)
}

func notStartedOf(reason, place C.uint32_t) error {
	if int(reason) >= len(reasonTexts) {
		panic(beyondInterface("reason not to start", reason))
	}
	return NotStarted{Reason(reason), uint32(place)}
}
