package gate

import (
	"bytes"
	"errors"
	"fmt"
	"os"
	"os/exec"
	"reflect"
	"runtime"
	"runtime/debug"
	"strings"
	"sync"
	"syscall"
	"testing"
	"time"
)

// goesOn is a module whose start function writes 5 at 8; a segment writes 7 at 0. The memory of one page may grow to two.
//
// `add` adds its argument to the global `count`, 0 at first, and gives the sum; `stop` sets it to 100 and traps; `grow` grows the memory.
// `wide` is the global -5, of 64 bits.
func goesOn() []byte {
	start := []byte{9, 0, 0x41, 8, 0x41, 5, 0x3a, 0, 0, 0x0b}
	add := []byte{11, 0, 0x23, 0, 0x20, 0, 0x6a, 0x24, 0, 0x23, 0, 0x0b}
	stop := []byte{8, 0, 0x41, 0xe4, 0, 0x24, 0, 0, 0x0b}
	grow := []byte{6, 0, 0x20, 0, 0x40, 0, 0x0b}
	return bytes.Join([][]byte{
		[]byte(header),
		section(1, []byte{2, 0x60, 0, 0, 0x60, 1, 0x7f, 1, 0x7f}),
		section(3, []byte{4, 0, 1, 0, 1}),
		section(5, []byte{1, 1, 1, 2}),
		section(6, []byte{2, 0x7f, 1, 0x41, 0, 0x0b, 0x7e, 0, 0x42, 0x7b, 0x0b}),
		section(7, []byte("\x05\x05count\x03\x00\x04wide\x03\x01\x03add\x00\x01\x04stop\x00\x02\x04grow\x00\x03")),
		section(8, []byte{0}),
		section(10, []byte{4}, start, add, stop, grow),
		section(11, []byte{1, 0, 0x41, 0, 0x0b, 1, 7}),
	}, nil)
}

func instanceOf(t *testing.T, module []byte) *Instance {
	t.Helper()
	made, err := opened(t, module).NewInstance(DefaultSettings())
	if err != nil {
		t.Fatal(err)
	}
	t.Cleanup(func() { made.Close() })
	return made
}

// expectCall expects how a call of an argument, or of none, ends.
func expectCall(t *testing.T, instance *Instance, name string, args []Value, wanted Call, wantedErr error) {
	t.Helper()
	if got, err := instance.Call(name, DefaultSettings(), args...); err != wantedErr || !reflect.DeepEqual(got, wanted) {
		t.Error(name, args, got, err)
	}
}

func expectNumber(t *testing.T, instance *Instance, name string, arg, wanted I32) {
	t.Helper()
	expectCall(t, instance, name, []Value{arg}, Call{[]Value{wanted}, 1}, nil)
}

func expectSize(t *testing.T, instance *Instance, wanted uint64) {
	t.Helper()
	if size, err := instance.MemorySize(); err != nil || size != wanted {
		t.Error(size, err)
	}
}

func expectBytes(t *testing.T, instance *Instance, at uint64, wanted ...byte) {
	t.Helper()
	if got, err := instance.ReadBytes(at, uint64(len(wanted))); err != nil || !bytes.Equal(got, wanted) {
		t.Error(at, got, err)
	}
}

func expectGlobal(t *testing.T, instance *Instance, name string, wanted Value) {
	t.Helper()
	if got, err := instance.Global(name); err != nil || got != wanted {
		t.Error(name, got, err)
	}
}

// expectBegun expects that it is as goesOn begins.
func expectBegun(t *testing.T, instance *Instance) {
	t.Helper()
	expectSize(t, instance, 65_536)
	expectBytes(t, instance, 0, 7, 0, 0, 0, 0, 0, 0, 0, 5)
	expectBytes(t, instance, 65_535, 0)
	expectGlobal(t, instance, "count", I32(0))
	if fuel := instance.StartFuel(); fuel != 1 {
		t.Error(fuel)
	}
}

func TestInstanceGoesOn(t *testing.T) {
	instance := instanceOf(t, goesOn())
	expectBegun(t, instance)
	expectNumber(t, instance, "add", 2, 2)
	expectNumber(t, instance, "add", 3, 5)
	expectGlobal(t, instance, "count", I32(5))
	expectGlobal(t, instance, "wide", I64(-5))
	expectBegun(t, instanceOf(t, goesOn()))
	expectCall(t, instance, "stop", nil, Call{[]Value{}, 1}, Unreachable)
	if got, err := instance.Call("add", Settings{0, 1, 0}, I32(1)); err != OutOfFuel || got.Fuel != 0 {
		t.Error(got, err)
	}
	expectNumber(t, instance, "add", 1, 101)
}

func TestInstanceCallOrReset(t *testing.T) {
	instance := instanceOf(t, goesOn())
	expect := func(name string, fuel uint32, wanted error, count I32, args ...Value) {
		t.Helper()
		if _, err := instance.CallOrReset(name, Settings{fuel, 1, 1}, args...); err != wanted {
			t.Error(name, err)
		}
		expectGlobal(t, instance, "count", count)
	}
	expect("add", 1, nil, 2, I32(2))
	expect("add", 1, nil, 5, I32(3))
	expect("stop", 1, Unreachable, 0)
	expect("add", 1, nil, 1, I32(1))
	expect("add", 0, OutOfFuel, 0, I32(1))
	expect("add", 1, nil, 1, I32(1))
	expect("add", MostFuel+1, SettingsError{"Fuel", MostFuel + 1, 0, MostFuel}, 1, I32(1))
	instance.Close()
	if _, err := instance.CallOrReset("add", DefaultSettings(), I32(1)); err != ErrClosed {
		t.Error(err)
	}
}

func TestInstanceCallsThatDoNotRun(t *testing.T) {
	instance := instanceOf(t, goesOn())
	nothing := Call{Results: []Value{}}
	expectCall(t, instance, "none", nil, nothing, NoExport)
	expectCall(t, instance, "count", nil, nothing, NotAFunction)
	expectCall(t, instance, "add", []Value{I64(1)}, nothing, BadArguments)
	if _, err := instance.Call("add", Settings{0, 0, 0}, I32(1)); err != (SettingsError{"Frames", 0, 1, MostFrames}) {
		t.Error(err)
	}
	expectBegun(t, instance)
}

func TestInstanceResultsOfAnyNumber(t *testing.T) {
	for _, count := range []int{0, 1, 2, 16, 17, 1024, 1025} {
		instance := instanceOf(t, sevens(count))
		for turn := 0; turn < 2; turn++ {
			call, err := instance.Call("f", DefaultSettings())
			if err != nil || len(call.Results) != count || call.Fuel != 1 || count > 0 && call.Results[count-1] != I32(7) {
				t.Error(count, len(call.Results), call.Fuel, err)
			}
		}
	}
}

func TestInstanceMemoryGrows(t *testing.T) {
	instance := instanceOf(t, goesOn())
	expectNumber(t, instance, "grow", 1, 1)
	expectSize(t, instance, 131_072)
	expectBytes(t, instance, 131_071, 0)
	small, err := opened(t, goesOn()).NewInstance(Settings{1, 1, 1})
	if err != nil {
		t.Fatal(err)
	}
	defer small.Close()
	expectNumber(t, small, "grow", 1, -1)
	expectSize(t, small, 65_536)
}

func TestInstanceBytes(t *testing.T) {
	instance := instanceOf(t, goesOn())
	if err := instance.Write(16, []byte{40, 41}); err != nil {
		t.Error(err)
	}
	out := make([]byte, 4)
	if err := instance.Read(15, out); err != nil || !bytes.Equal(out, []byte{0, 40, 41, 0}) {
		t.Error(out, err)
	}
	if err := instance.Write(65_534, []byte{1, 2}); err != nil {
		t.Error(err)
	}
	expectBytes(t, instance, 65_534, 1, 2)
	expectBytes(t, instance, 65_536)
	if read, written := instance.Read(65_536, nil), instance.Write(65_536, nil); read != nil || written != nil {
		t.Error(read, written)
	}
}

// expectOutside expects that `length` bytes from `at` on are neither read nor written.
func expectOutside(t *testing.T, instance *Instance, at uint64, length int) {
	t.Helper()
	out := bytes.Repeat([]byte{9}, length)
	if err := instance.Read(at, out); err != ErrOutside || !bytes.Equal(out, bytes.Repeat([]byte{9}, length)) {
		t.Error(at, length, out, err)
	}
	if got, err := instance.ReadBytes(at, uint64(length)); err != ErrOutside || got != nil {
		t.Error(at, length, got, err)
	}
	if err := instance.Write(at, out); err != ErrOutside {
		t.Error(at, length, err)
	}
}

func TestInstanceBytesOutside(t *testing.T) {
	instance := instanceOf(t, goesOn())
	const last = 1<<64 - 1
	expectOutside(t, instance, 65_535, 2)
	expectOutside(t, instance, 65_536, 1)
	expectOutside(t, instance, 65_537, 0)
	expectOutside(t, instance, last, 1)
	for _, at := range []uint64{0, last} {
		if got, err := instance.ReadBytes(at, last); err != ErrOutside {
			t.Error(at, got, err)
		}
	}
	expectBegun(t, instance)
	without := instanceOf(t, []byte(header))
	expectSize(t, without, 0)
	expectOutside(t, without, 0, 0)
	expectOutside(t, without, 0, 1)
}

func TestInstanceGlobals(t *testing.T) {
	instance := instanceOf(t, goesOn())
	for _, name := range []string{"add", "", "count "} {
		if got, err := instance.Global(name); err != ErrNoGlobal || got != nil {
			t.Error(name, got, err)
		}
	}
}

func TestInstanceReset(t *testing.T) {
	instance := instanceOf(t, goesOn())
	expectNumber(t, instance, "grow", 1, 1)
	expectCall(t, instance, "stop", nil, Call{[]Value{}, 1}, Unreachable)
	if err := instance.Write(0, bytes.Repeat([]byte{1}, 100_000)); err != nil {
		t.Error(err)
	}
	if err := instance.Reset(); err != nil {
		t.Error(err)
	}
	expectBegun(t, instance)
	expectNumber(t, instance, "add", 2, 2)
}

func TestNoInstance(t *testing.T) {
	imports := bytes.Join([][]byte{[]byte(header), section(1, []byte{1, 0x60, 0, 0}), section(2, []byte("\x01\x00\x00\x00\x00"))}, nil)
	// Its start function is `unreachable`.
	traps := bytes.Join([][]byte{[]byte(header), section(1, []byte{1, 0x60, 0, 0}), section(3, []byte{1, 0}), section(8, []byte{0}),
		section(10, []byte{1, 3, 0, 0, 0x0b})}, nil)
	for _, row := range []struct {
		module   []byte
		settings Settings
		wanted   error
		text     string
	}{
		{imports, DefaultSettings(), NoInstance{NotStarted{Imports, 0}, 0}, "no instance: not-started imports"},
		{goesOn(), Settings{1, 1, 0}, NoInstance{NotStarted{MemoryLimit, 0}, 0}, "no instance: not-started memory-limit"},
		{goesOn(), Settings{0, 1, 1}, NoInstance{OutOfFuel, 0}, "no instance: out-of-fuel"},
		{traps, DefaultSettings(), NoInstance{Unreachable, 1}, "no instance: trap unreachable"},
		{goesOn(), Settings{0, 0, 0}, SettingsError{"Frames", 0, 1, MostFrames}, "Frames 0 is not from 1 to 4096"},
	} {
		if got, err := opened(t, row.module).NewInstance(row.settings); got != nil || err != row.wanted || err.Error() != row.text {
			t.Error(row.text, got, err)
		}
	}
	_, err := opened(t, traps).NewInstance(DefaultSettings())
	var none NoInstance
	var trap Trap
	if !errors.As(err, &none) || !errors.As(err, &trap) || trap != Unreachable || !errors.Is(err, Unreachable) {
		t.Error(err)
	}
}

func TestInstanceClosed(t *testing.T) {
	module := opened(t, goesOn())
	instance, err := module.NewInstance(DefaultSettings())
	if err != nil {
		t.Fatal(err)
	}
	// It outlives its module.
	module.Close()
	expectNumber(t, instance, "add", 1, 1)
	if first, second := instance.Close(), instance.Close(); first != nil || second != nil {
		t.Error(first, second)
	}
	_, called := instance.Call("add", DefaultSettings(), I32(1))
	_, sized := instance.MemorySize()
	_, gave := instance.ReadBytes(0, 1)
	_, told := instance.Global("count")
	_, made := module.NewInstance(DefaultSettings())
	for place, err := range []error{
		called, sized, gave, told, made, instance.Read(0, nil), instance.Write(0, nil), instance.Reset(),
	} {
		if err != ErrClosed {
			t.Error(place, err)
		}
	}
}

// What nobody closes is freed by the collector: the bytes' count of handles comes down to that of the module.
func TestInstanceForgotten(t *testing.T) {
	module := opened(t, goesOn())
	for number := 0; number < 100; number++ {
		if _, err := module.NewInstance(DefaultSettings()); err != nil {
			t.Fatal(err)
		}
	}
	for turn := 0; turn < 500 && module.bytes.handles.Load() > 1; turn++ {
		runtime.GC()
		time.Sleep(10 * time.Millisecond)
	}
	if handles := module.bytes.handles.Load(); handles != 1 {
		t.Error(handles)
	}
}

// Half of the goroutines have an instance of their own, and the others wait for one another.
func TestInstancesOfGoroutines(t *testing.T) {
	same := instanceOf(t, goesOn())
	var done sync.WaitGroup
	work := func(instance *Instance) {
		defer done.Done()
		for turn := 0; turn < 300; turn++ {
			if _, err := instance.Call("add", DefaultSettings(), I32(1)); err != nil {
				t.Error(err)
			}
		}
	}
	done.Add(16)
	for number := 0; number < 8; number++ {
		go work(instanceOf(t, goesOn()))
		go work(same)
	}
	done.Wait()
	expectGlobal(t, same, "count", I32(2400))
}

func TestOne(t *testing.T) {
	narrow, wide := Call{[]Value{I32(-1)}, 1}, Call{[]Value{I64(-1)}, 1}
	if number, err := One[int32](narrow, nil); err != nil || number != -1 {
		t.Error(number, err)
	}
	if number, err := One[uint32](narrow, nil); err != nil || number != 0xFFFF_FFFF {
		t.Error(number, err)
	}
	if number, err := One[I64](wide, nil); err != nil || number != -1 {
		t.Error(number, err)
	}
	if number, err := One[uint64](wide, nil); err != nil || number != 0xFFFF_FFFF_FFFF_FFFF {
		t.Error(number, err)
	}
	for _, results := range [][]Value{{}, {I64(1)}, {I32(1), I32(1)}} {
		if number, err := One[uint32](Call{results, 1}, nil); !errors.Is(err, ErrResults) || number != 0 {
			t.Error(results, number, err)
		}
	}
	if _, err := One[uint64](narrow, nil); !errors.Is(err, ErrResults) || err.Error() != "not the one number that is asked for: [i32:-1]" {
		t.Error(err)
	}
	if _, err := One[uint32](Call{}, Unreachable); err != Unreachable {
		t.Error(err)
	}
}

// enters is a module whose start function enters itself `count` times, up to 8,191, with 50,000 locals each time. `grow` grows its
// memory, which has a page.
func enters(count int) []byte {
	// `if (count) { count -= 1; start() }`, where `count` is a global.
	locals := bytes.Join([][]byte{{1}, unsigned(50_000), {0x7f}}, nil)
	code := []byte{0x23, 0, 0x04, 0x40, 0x23, 0, 0x41, 0x7f, 0x6a, 0x24, 0, 0x10, 0, 0x0b, 0x0b}
	grow := []byte{6, 0, 0x20, 0, 0x40, 0, 0x0b}
	return bytes.Join([][]byte{
		[]byte(header),
		section(1, []byte{2, 0x60, 0, 0, 0x60, 1, 0x7f, 1, 0x7f}),
		section(3, []byte{2, 0, 1}),
		section(5, []byte{1, 0, 1}),
		section(6, []byte{1, 0x7f, 1, 0x41, 0x80 | byte(count), byte(count >> 7), 0x0b}),
		section(7, []byte("\x01\x04grow\x00\x01")),
		section(8, []byte{0}),
		section(10, []byte{2}, unsigned(len(locals)+len(code)), locals, code, grow),
	}, nil)
}

// inShortMemory acts where the process gets 16 megabytes more of addresses.
func inShortMemory(t *testing.T, act func()) {
	t.Helper()
	defer debug.SetGCPercent(debug.SetGCPercent(-1))
	told, err := os.ReadFile("/proc/self/statm")
	if err != nil {
		t.Fatal(err)
	}
	var pages uint64
	var usual syscall.Rlimit
	if _, err := fmt.Sscan(string(told), &pages); err != nil {
		t.Fatal(err)
	}
	if err := syscall.Getrlimit(syscall.RLIMIT_AS, &usual); err != nil {
		t.Fatal(err)
	}
	if err := syscall.Setrlimit(syscall.RLIMIT_AS, &syscall.Rlimit{Cur: pages*4096 + 16<<20, Max: usual.Max}); err != nil {
		t.Fatal(err)
	}
	act()
	if err := syscall.Setrlimit(syscall.RLIMIT_AS, &usual); err != nil {
		t.Fatal(err)
	}
}

// inOwnProcess says whether the process is this test's own; else it runs the test in such a one. There malloc keeps nothing back of
// what was freed, and has no other place for large blocks.
func inOwnProcess(t *testing.T) bool {
	t.Helper()
	if os.Getenv("MALLOC_MMAP_THRESHOLD_") == "65536" && os.Getenv("MALLOC_ARENA_MAX") == "1" {
		return true
	}
	again := exec.Command(os.Args[0], "-test.run=^"+t.Name()+"$")
	again.Env = append(os.Environ(), "MALLOC_MMAP_THRESHOLD_=65536", "MALLOC_ARENA_MAX=1")
	if said, err := again.CombinedOutput(); err != nil {
		t.Errorf("%v: %s", err, said)
	}
	return false
}

var most = Settings{1000, 1000, MostPages}

// A call that runs short of memory, and each one after it.
func TestInstanceCallNoMemory(t *testing.T) {
	if !inOwnProcess(t) {
		return
	}
	instance, err := opened(t, enters(0)).NewInstance(most)
	if err != nil {
		t.Fatal(err)
	}
	defer instance.Close()
	inShortMemory(t, func() { _, err = instance.Call("grow", most, I32(1023)) })
	if _, next := instance.Call("grow", most, I32(1)); err != ErrNoMemory || next != ErrNoMemory {
		t.Error(err, next)
	}
	if err := instance.Reset(); err != nil {
		t.Error(err)
	}
	expectNumber(t, instance, "grow", 1, 1)
}

// A reset that makes no instance; another one does.
func TestInstanceResetNoMemory(t *testing.T) {
	if !inOwnProcess(t) {
		return
	}
	instance := instanceOf(t, enters(64))
	var err error
	inShortMemory(t, func() { err = instance.Reset() })
	if err != (NoInstance{ErrNoMemory, 0}) || !errors.Is(err, ErrNoMemory) || err.Error() != "no instance: no memory" {
		t.Error(err)
	}
	if _, next := instance.Call("grow", DefaultSettings(), I32(1)); next != err {
		t.Error(next)
	}
	expectSize(t, instance, 0)
	expectOutside(t, instance, 0, 1)
	if err := instance.Reset(); err != nil || instance.StartFuel() != 65 {
		t.Error(err)
	}
	expectNumber(t, instance, "grow", 1, 1)
}

func TestNewInstanceNoMemory(t *testing.T) {
	if !inOwnProcess(t) {
		return
	}
	// Its memory has 1,024 pages.
	module := opened(t, bytes.Join([][]byte{[]byte(header), section(5, []byte{1, 0, 0x80, 8})}, nil))
	var err error
	inShortMemory(t, func() { _, err = module.NewInstance(most) })
	if !errors.Is(err, ErrNoMemory) {
		t.Error(err)
	}
}

// ask is the answer of a plug-in to a request, by the convention of docs/GUESTS.md.
func ask(t *testing.T, plugin *Instance, request string) string {
	t.Helper()
	length := I32(len(request))
	address, err := One[uint32](plugin.Call("alloc", DefaultSettings(), length))
	if err != nil {
		t.Fatal(err)
	}
	if err := plugin.Write(uint64(address), []byte(request)); err != nil {
		t.Fatal(err)
	}
	answer, err := One[uint64](plugin.Call("handle", DefaultSettings(), I32(address), length))
	if err != nil {
		t.Fatal(err)
	}
	text, err := plugin.ReadBytes(answer>>32, answer&0xFFFF_FFFF)
	if err != nil {
		t.Fatal(err)
	}
	return string(text)
}

func TestPlugins(t *testing.T) {
	upper := instanceOf(t, example(t, "guests/upper.wasm"))
	pick := instanceOf(t, example(t, "guests/pick.wasm"))
	const object = "\n{ \"name\": \"gate\", \"length\": 17 }"
	got := []string{ask(t, upper, "Hello, world"), ask(t, upper, ""), ask(t, pick, "name"+object), ask(t, pick, "length"+object)}
	if strings.Join(got, "|") != "HELLO, WORLD||gate|17" {
		t.Error(got)
	}
	// The room of 8,192 bytes is used up, and is there again after a reset.
	if address, err := One[uint32](pick.Call("alloc", DefaultSettings(), I32(8192-37-39))); err != nil || address == 0 {
		t.Error(address, err)
	}
	expectNumber(t, pick, "alloc", 1, 0)
	if err := pick.Reset(); err != nil {
		t.Error(err)
	}
	if answer := ask(t, pick, "name"+object); answer != "gate" {
		t.Error(answer)
	}
}
