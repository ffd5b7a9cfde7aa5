package gate

// #include "gate.h"
import "C"

import (
	"context"
	"errors"
	"runtime"
	"sync"
)

// ErrOutside says that bytes do not lie in the memory of an instance. Nothing is read or written.
var ErrOutside = errors.New("the bytes do not lie in the memory")

// ErrNoGlobal says that no global is exported under a name.
var ErrNoGlobal = errors.New("no global is exported under the name")

// NoInstance says why there is no instance. errors.Is and errors.As find the reason.
type NoInstance struct {
	Err  error  // NotStarted; or how the start function ended: a Trap, OutOfFuel or OutOfFrames; or ErrNoMemory
	Fuel uint32 // what the start function cost
}

func (n NoInstance) Error() string { return "no instance: " + n.Err.Error() }

// Unwrap is the reason.
func (n NoInstance) Unwrap() error { return n.Err }

// Instance is an instance of a module that goes on from call to call: what one call leaves in its memory, its globals and its table,
// the next one finds. It may outlive the Module that it comes of.
//
// Calls of one Instance wait for one another. What is not closed is freed when the garbage collector finds it, which sees nothing of
// what it takes: Close it.
type Instance struct {
	mutex     sync.Mutex
	handle    C.gate_instance
	module    *Module // its own; nil once it is closed
	startFuel uint32
	none      error // why the last Reset made no instance
}

// NewInstance makes an instance, and runs the start function, under these limits. How many pages its memory may have is said here; fuel
// and frames are said anew for each call. The error is NoInstance, a SettingsError, ErrNoMemory or ErrClosed.
func (m *Module) NewInstance(settings Settings) (*Instance, error) {
	limits, err := settings.inC()
	if err != nil {
		return nil, err
	}
	module, err := m.Share()
	if err != nil {
		return nil, err
	}
	var handle C.gate_instance
	var ended C.gate_call
	status := C.gate_instance_new(module.handle, &limits, &handle, &ended)
	if err := begun(status, &ended); err != nil {
		module.Close()
		return nil, err
	}
	instance := &Instance{handle: handle, module: module, startFuel: uint32(ended.fuel)}
	// A call is never cut off by it: each one unlocks its instance's mutex after the library has answered.
	runtime.SetFinalizer(instance, (*Instance).Close)
	return instance, nil
}

// begun is why there is no instance; nil where there is one.
func begun(status C.uint32_t, ended *C.gate_call) error {
	switch status {
	case C.GATE_OK:
		return nil
	case C.GATE_NO_INSTANCE:
		return NoInstance{endOf(ended), uint32(ended.fuel)}
	case C.GATE_NO_MEMORY:
		return ErrNoMemory
	}
	panic(beyondInterface("status", status))
}

// done is what a status says of bytes.
func done(status C.uint32_t) error {
	if status == C.GATE_OUTSIDE {
		return ErrOutside
	}
	expectOK(status)
	return nil
}

// Call calls an export on the instance as it is, under the fuel and the frames of the settings. After a trap, or where fuel or frames
// ran out, it is as the call left it, and goes on. After ErrNoMemory each further call ends so, until a Reset.
//
// The error is an End, a Trap, a SettingsError, ErrNoMemory or ErrClosed; and that of the last Reset where it made no instance.
func (i *Instance) Call(name string, settings Settings, args ...Value) (Call, error) {
	return i.CallContext(context.Background(), name, settings, args...)
}

// CallContext is as Call, but where the context is done before the call begins, as while another call runs: then nothing runs, and the error
// is the context's. A call that has begun goes on, since nothing ends it but its fuel.
func (i *Instance) CallContext(ctx context.Context, name string, settings Settings, args ...Value) (Call, error) {
	i.mutex.Lock()
	defer i.mutex.Unlock()
	if err := ctx.Err(); err != nil {
		return Call{}, err
	}
	return i.call(name, settings, args)
}

// CallOrReset is as Call, and after each end but values as Reset too, which a plug-in of a compiler wants: a trap leaves its stack pointer
// where it was. The error is that of the reset where it made no instance, else that of the call.
func (i *Instance) CallOrReset(name string, settings Settings, args ...Value) (Call, error) {
	i.mutex.Lock()
	defer i.mutex.Unlock()
	call, err := i.call(name, settings, args)
	if _, isOfSettings := err.(SettingsError); err == nil || isOfSettings || i.module == nil {
		return call, err
	}
	if none := i.reset(); none != nil {
		return Call{}, none
	}
	return call, err
}

func (i *Instance) call(name string, settings Settings, args []Value) (Call, error) {
	limits, err := settings.inC()
	if err != nil {
		return Call{}, err
	}
	if i.module == nil {
		return Call{}, ErrClosed
	}
	if i.none != nil {
		return Call{}, i.none
	}
	return i.module.called(name, args, func(in operands, results []C.gate_value, ended *C.gate_call) C.uint32_t {
		resultsAt, resultsRoom := valuesInC(results)
		return C.gate_instance_call(i.handle, in.name, in.nameLength, in.args, in.argsCount, &limits, resultsAt, resultsRoom, ended)
	})
}

// MemorySize is how many bytes its memory has; 0 where it has none. The error is ErrClosed.
func (i *Instance) MemorySize() (uint64, error) {
	i.mutex.Lock()
	defer i.mutex.Unlock()
	return i.memorySize()
}

func (i *Instance) memorySize() (uint64, error) {
	if i.module == nil {
		return 0, ErrClosed
	}
	var size C.uint64_t
	expectOK(C.gate_instance_memory_size(i.handle, &size))
	return uint64(size), nil
}

// Read copies bytes of its memory, from `at` on, as many as there is room for in `out`. The error is ErrOutside or ErrClosed.
func (i *Instance) Read(at uint64, out []byte) error {
	i.mutex.Lock()
	defer i.mutex.Unlock()
	return i.read(at, out)
}

func (i *Instance) read(at uint64, out []byte) error {
	if i.module == nil {
		return ErrClosed
	}
	outAt, length := inC(out)
	return done(C.gate_instance_read(i.handle, C.uint64_t(at), outAt, length))
}

// ReadBytes is `length` bytes of its memory, from `at` on. The error is ErrOutside or ErrClosed. Room is taken only for bytes that are
// there, so a plug-in may give any numbers.
func (i *Instance) ReadBytes(at, length uint64) ([]byte, error) {
	i.mutex.Lock()
	defer i.mutex.Unlock()
	size, err := i.memorySize()
	if err != nil {
		return nil, err
	}
	if at > size || length > size-at {
		return nil, ErrOutside
	}
	bytes := make([]byte, length)
	if err := i.read(at, bytes); err != nil {
		return nil, err
	}
	return bytes, nil
}

// Write writes bytes to its memory, from `at` on. The error is ErrOutside or ErrClosed.
func (i *Instance) Write(at uint64, bytes []byte) error {
	i.mutex.Lock()
	defer i.mutex.Unlock()
	if i.module == nil {
		return ErrClosed
	}
	bytesAt, length := inC(bytes)
	return done(C.gate_instance_write(i.handle, C.uint64_t(at), bytesAt, length))
}

// Global is the value of an exported global. The error is ErrNoGlobal or ErrClosed.
func (i *Instance) Global(name string) (Value, error) {
	i.mutex.Lock()
	defer i.mutex.Unlock()
	if i.module == nil {
		return nil, ErrClosed
	}
	var value C.gate_value
	at, length := inC([]byte(name))
	status := C.gate_instance_global(i.handle, at, length, &value)
	if status == C.GATE_NO_GLOBAL {
		return nil, ErrNoGlobal
	}
	expectOK(status)
	return valueOf(value), nil
}

// Reset ends the instance, and makes a new one in its memory, under the limits that it was made with. The error is NoInstance, and then
// there is no instance, and another Reset may make one; or ErrClosed.
func (i *Instance) Reset() error {
	i.mutex.Lock()
	defer i.mutex.Unlock()
	if i.module == nil {
		return ErrClosed
	}
	return i.reset()
}

func (i *Instance) reset() error {
	var ended C.gate_call
	i.none = begun(C.gate_instance_reset(i.handle, &ended), &ended)
	i.startFuel = uint32(ended.fuel)
	return i.none
}

// StartFuel is what the start function cost; 0 where there is none.
func (i *Instance) StartFuel() uint32 {
	i.mutex.Lock()
	defer i.mutex.Unlock()
	return i.startFuel
}

// Close frees the instance. A second Close does nothing. The error is nil.
func (i *Instance) Close() error {
	i.mutex.Lock()
	defer i.mutex.Unlock()
	if i.module == nil {
		return nil
	}
	C.gate_instance_free(i.handle)
	i.module.Close()
	i.module = nil
	runtime.SetFinalizer(i, nil)
	return nil
}
