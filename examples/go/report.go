package gate

// #include "gate.h"
import "C"

import (
	"strconv"
	"strings"
)

// Status is what the text of a Report is, and the exit status of `gate run`.
type Status uint32

// What the text of a Report is.
const (
	Reported      Status = C.GATE_OK             // the report of the calls of an accepted module
	ModuleRefused Status = C.GATE_MODULE_REFUSED // the verdict line of a refused module
	CallsRefused  Status = C.GATE_CALLS_REFUSED  // `accepted`, and what is wrong with the text of calls
)

// Report is the answer to a module and a text of calls.
type Report struct {
	Text   string // what `gate run` prints, byte by byte
	Status Status
}

// Ended is how a call of a report ended: what Module.Call gives.
type Ended struct {
	Call Call
	Err  error // nil where the call gave values; else an End, a Trap, NotStarted or ErrNoMemory
}

// Ends is how each call ended, in the order of the calls; nothing where the module or the calls are refused.
func (r Report) Ends() []Ended {
	if r.Status != Reported {
		return nil
	}
	lines := strings.Split(strings.TrimSuffix(r.Text, "\n"), "\n")
	var ends []Ended
	for _, line := range lines[:len(lines)-1] {
		ended, isLine := endedOf(line)
		if !isLine {
			panic("libgate answers the line " + strconv.Quote(line) + ", which interface 1 does not have")
		}
		ends = append(ends, ended)
	}
	return ends
}

// endedOf reads a line of a report, if it is one.
func endedOf(line string) (Ended, bool) {
	_, told, _ := strings.Cut(line, " ")
	words, cost, hasCost := strings.Cut(told, " fuel ")
	fuel, err := strconv.ParseUint(cost, 10, 32)
	if hasCost && err != nil {
		return Ended{}, false
	}
	ended := Ended{Call: Call{Results: []Value{}, Fuel: uint32(fuel)}}
	kind, values, hasValues := strings.Cut(words, " ")
	if kind != "values" {
		ended.Err = endOfWords(words)
		return ended, ended.Err != nil
	}
	if hasValues {
		ended.Call.Results, err = parseValues(values)
	}
	return ended, hasCost && err == nil
}

func parseValues(words string) ([]Value, error) {
	var values []Value
	for _, word := range strings.Split(words, ",") {
		value, err := ParseValue(word)
		if err != nil {
			return nil, err
		}
		values = append(values, value)
	}
	return values, nil
}

// firstRoom is room for every refusal and for the reports of some hundred calls.
const firstRoom = 4096

// Run judges a module and runs the calls of a text, each on an instance of its own. The error is a SettingsError or ErrNoMemory:
// a refusal is an answer.
func Run(module, calls []byte, settings Settings) (Report, error) {
	limits, err := settings.inC()
	if err != nil {
		return Report{}, err
	}
	at, length := inC(module)
	callsAt, callsLength := inC(calls)
	return written(func(out *C.uint8_t, room C.size_t, wanted *C.size_t, kept *C.gate_report) C.uint32_t {
		return C.gate_run(at, length, callsAt, callsLength, &limits, out, room, wanted, kept)
	})
}

// written lets the library write into a buffer, and where that is short reads what the library keeps: nothing runs twice.
func written(write func(*C.uint8_t, C.size_t, *C.size_t, *C.gate_report) C.uint32_t) (Report, error) {
	var length C.size_t
	var kept C.gate_report
	text := make([]byte, firstRoom)
	out, room := inC(text)
	status := write(out, room, &length, &kept)
	if status == C.GATE_SHORT_BUFFER {
		defer C.gate_report_free(kept)
		text = make([]byte, length)
		out, room = inC(text)
		status = C.gate_report_read(kept, out, room, &length)
	}
	switch status {
	case C.GATE_OK, C.GATE_MODULE_REFUSED, C.GATE_CALLS_REFUSED:
		return Report{string(text[:length]), Status(status)}, nil
	case C.GATE_NO_MEMORY:
		return Report{}, ErrNoMemory
	}
	panic(beyondInterface("status", status))
}
