package gate

// #include <stdlib.h>
// #include "gate.h"
import "C"

import (
	"context"
	"errors"
	"runtime"
	"sync"
	"sync/atomic"
	"unsafe"
)

// ErrClosed says that a module or an instance was used after its Close.
var ErrClosed = errors.New("the module or the instance is closed")

// Module is an accepted module: judged once, called often. Each call has an instance of its own, so no call sees what another one
// wrote. An Instance, by NewInstance, goes on from call to call.
//
// Calls of one Module wait for one another, since a call has its handle to itself; goroutines that call at the same time have one
// each, by Share. What is not closed is freed when the garbage collector finds it, which sees nothing of what it takes: Close it.
type Module struct {
	mutex  sync.Mutex
	handle C.gate_module
	bytes  *shared // nil once it is closed
}

// shared is the bytes of a module in C's memory: Go's may not be kept by C.
type shared struct {
	at      unsafe.Pointer
	handles atomic.Int32
}

// NewModule judges a module, of which it takes a copy. The error is its Explanation or ErrNoMemory.
func NewModule(module []byte) (*Module, error) {
	bytes := &shared{at: C.CBytes(module)}
	var verdict C.gate_verdict
	var handle C.gate_module
	err := judged(C.gate_module_new((*C.uint8_t)(bytes.at), C.size_t(len(module)), &verdict, &handle), module)
	if err != nil {
		C.free(bytes.at)
		return nil, err
	}
	return moduleOf(handle, bytes), nil
}

func moduleOf(handle C.gate_module, bytes *shared) *Module {
	bytes.handles.Add(1)
	module := &Module{handle: handle, bytes: bytes}
	// A call is never cut off by it: each one unlocks its module's mutex after the library has answered.
	runtime.SetFinalizer(module, (*Module).Close)
	return module
}

// Call calls an export. Which arguments it takes, Find tells. The error is an End, a Trap, NotStarted, a SettingsError, ErrNoMemory or
// ErrClosed.
func (m *Module) Call(name string, settings Settings, args ...Value) (Call, error) {
	return m.CallContext(context.Background(), name, settings, args...)
}

// CallContext is as Call, but where the context is done before the call begins, as while another call runs: then nothing runs, and the error
// is the context's. A call that has begun goes on, since nothing ends it but its fuel.
func (m *Module) CallContext(ctx context.Context, name string, settings Settings, args ...Value) (Call, error) {
	limits, err := settings.inC()
	if err != nil {
		return Call{}, err
	}
	m.mutex.Lock()
	defer m.mutex.Unlock()
	if m.bytes == nil {
		return Call{}, ErrClosed
	}
	if err := ctx.Err(); err != nil {
		return Call{}, err
	}
	return m.called(name, args, func(in operands, results []C.gate_value, ended *C.gate_call) C.uint32_t {
		resultsAt, resultsRoom := valuesInC(results)
		return C.gate_module_call(m.handle, in.name, in.nameLength, in.args, in.argsCount, &limits, resultsAt, resultsRoom, ended)
	})
}

// operands are a call's name and arguments as C takes them.
type operands struct {
	name       *C.uint8_t
	nameLength C.size_t
	args       *C.gate_value
	argsCount  C.size_t
}

// called calls with as much room as the results need.
func (m *Module) called(name string, args []Value, call func(operands, []C.gate_value, *C.gate_call) C.uint32_t) (Call, error) {
	var ended C.gate_call
	var in operands
	told, _ := m.told([]byte(name))
	results := make([]C.gate_value, told.results)
	in.name, in.nameLength = inC([]byte(name))
	in.args, in.argsCount = valuesInC(argsInC(args))
	status := call(in, results, &ended)
	if status == C.GATE_NO_MEMORY {
		return Call{}, ErrNoMemory
	}
	expectOK(status)
	return Call{valuesOf(results[:ended.results]), uint32(ended.fuel)}, endOf(&ended)
}

// valuesInC is a slice as C takes it, for one call.
func valuesInC(values []C.gate_value) (*C.gate_value, C.size_t) {
	if len(values) == 0 {
		return nil, 0
	}
	return &values[0], C.size_t(len(values))
}

func argsInC(args []Value) []C.gate_value {
	numbers := make([]C.gate_value, len(args))
	for place, value := range args {
		numbers[place] = value.inC()
	}
	return numbers
}

func valuesOf(numbers []C.gate_value) []Value {
	values := make([]Value, len(numbers))
	for place, number := range numbers {
		values[place] = valueOf(number)
	}
	return values
}

// Run runs the calls of a text, as the function Run does. The error is a SettingsError, ErrNoMemory or ErrClosed.
func (m *Module) Run(calls []byte, settings Settings) (Report, error) {
	limits, err := settings.inC()
	if err != nil {
		return Report{}, err
	}
	m.mutex.Lock()
	defer m.mutex.Unlock()
	if m.bytes == nil {
		return Report{}, ErrClosed
	}
	at, length := inC(calls)
	return written(func(out *C.uint8_t, room C.size_t, wanted *C.size_t, kept *C.gate_report) C.uint32_t {
		return C.gate_module_run(m.handle, at, length, &limits, out, room, wanted, kept)
	})
}

// Share gives the same module once more, for another goroutine, to be closed on its own. Nothing is judged again and no byte is
// copied. The error is ErrNoMemory or ErrClosed.
func (m *Module) Share() (*Module, error) {
	m.mutex.Lock()
	defer m.mutex.Unlock()
	if m.bytes == nil {
		return nil, ErrClosed
	}
	var other C.gate_module
	switch status := C.gate_module_share(m.handle, &other); status {
	case C.GATE_OK:
		return moduleOf(other, m.bytes), nil
	case C.GATE_NO_MEMORY:
		return nil, ErrNoMemory
	default:
		panic(beyondInterface("status", status))
	}
}

// Close frees the module, and with the last of those that share them the bytes. A second Close does nothing. The error is nil.
func (m *Module) Close() error {
	m.mutex.Lock()
	defer m.mutex.Unlock()
	if m.bytes == nil {
		return nil
	}
	C.gate_module_free(m.handle)
	if m.bytes.handles.Add(-1) == 0 {
		C.free(m.bytes.at)
	}
	m.bytes = nil
	runtime.SetFinalizer(m, nil)
	return nil
}
