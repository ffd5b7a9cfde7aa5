package gate

// #include "gate.h"
import "C"

import (
	"fmt"
	"strconv"
	"strings"
)

// Value is an argument or a result: I32 or I64. Its text is that of a text of calls, as in i32:-5.
type Value interface {
	fmt.Stringer
	inC() C.gate_value
}

// I32 is a number of 32 bits. Wasm's numbers have no sign of their own; here they are read with one.
type I32 int32

// I64 is a number of 64 bits.
type I64 int64

func (n I32) String() string { return fmt.Sprintf("i32:%d", int32(n)) }
func (n I64) String() string { return fmt.Sprintf("i64:%d", int64(n)) }

func (n I32) inC() C.gate_value { return C.gate_value{32, C.uint64_t(uint32(n))} }
func (n I64) inC() C.gate_value { return C.gate_value{64, C.uint64_t(n)} }

func valueOf(value C.gate_value) Value {
	switch value.width {
	case 32:
		return I32(value.bits)
	case 64:
		return I64(value.bits)
	}
	panic(beyondInterface("width", value.width))
}

// ParseValue reads i32:D or i64:D, with D in its range and in its shortest form.
func ParseValue(word string) (Value, error) {
	digits := strings.TrimPrefix(strings.TrimPrefix(word, "i32:"), "i64:")
	var value Value
	if number, err := strconv.ParseInt(digits, 10, 64); err == nil {
		value = I64(number)
		if strings.HasPrefix(word, "i32:") {
			value = I32(number)
		}
	}
	// What is out of range, `+1`, `01` and `-0` come back as another word.
	if value == nil || value.String() != word {
		return nil, fmt.Errorf("%q is not i32:N or i64:N with N in its range", word)
	}
	return value, nil
}
