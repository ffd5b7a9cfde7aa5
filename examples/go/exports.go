package gate

// #include "gate.h"
import "C"

import (
	"fmt"
	"strings"
	"unsafe"
)

// ExportKind is what is exported.
type ExportKind uint32

// The kinds of exports.
const (
	Function ExportKind = C.GATE_EXPORT_FUNCTION
	Table    ExportKind = C.GATE_EXPORT_TABLE
	Memory   ExportKind = C.GATE_EXPORT_MEMORY
	Global   ExportKind = C.GATE_EXPORT_GLOBAL
)

// ValueType is the type of a value, by the byte that spells it in a module. No module with floats is run.
type ValueType byte

// The types of values.
const (
	TypeI32 ValueType = C.GATE_TYPE_I32
	TypeI64 ValueType = C.GATE_TYPE_I64
	TypeF32 ValueType = C.GATE_TYPE_F32
	TypeF64 ValueType = C.GATE_TYPE_F64
)

// Export is what is exported under a name.
type Export struct {
	Name    string
	Kind    ExportKind
	Index   uint32      // among those of its kind, imported ones counted first
	Params  []ValueType // of a function
	Results []ValueType // of a function, the lowest first
}

// Import is what is imported: the item of that name of another module.
type Import struct {
	Module  string
	Name    string
	Kind    ExportKind
	Params  []ValueType // of a function
	Results []ValueType // of a function, the lowest first
}

// Measures are numbers by which a host may refuse a module: those of the formula in SECURITY, "Time of a run".
type Measures struct {
	Tokens uint64 // of the longest body
	Locals uint64 // the most of a function: its parameters, and those that it declares
	Values uint64 // the longest list of types: the parameters or the results of a function type
}

// firstName is the room that the name of an export has at first.
const firstName = 64

func (k ExportKind) String() string {
	return [...]string{Function: "function", Table: "table", Memory: "memory", Global: "global"}[k]
}

func (t ValueType) String() string {
	return map[ValueType]string{TypeI32: "i32", TypeI64: "i64", TypeF32: "f32", TypeF64: "f64"}[t]
}

func typesText(types []ValueType) string {
	words := make([]string, len(types))
	for place, valueType := range types {
		words[place] = valueType.String()
	}
	return "(" + strings.Join(words, ", ") + ")"
}

func (e Export) String() string {
	if e.Kind == Function {
		return fmt.Sprintf("%s: function %s -> %s", e.Name, typesText(e.Params), typesText(e.Results))
	}
	return fmt.Sprintf("%s: %v %d", e.Name, e.Kind, e.Index)
}

func (i Import) String() string {
	if i.Kind == Function {
		return fmt.Sprintf("%s %s: function %s -> %s", i.Module, i.Name, typesText(i.Params), typesText(i.Results))
	}
	return fmt.Sprintf("%s %s: %v", i.Module, i.Name, i.Kind)
}

// ExportsText judges a module, and is what `gate exports` prints: its imports, exports and custom sections, and whether an instance starts
// within these limits, and if not, why and where. Of a refused module it is the line of the verdict. The error is a SettingsError or
// ErrNoMemory.
func ExportsText(module []byte, settings Settings) (string, error) {
	limits, err := settings.inC()
	if err != nil {
		return "", err
	}
	at, length := inC(module)
	return textBy(func(out *C.uint8_t, room C.size_t, wanted *C.size_t) C.uint32_t {
		return C.gate_exports_text(at, length, &limits, out, room, wanted)
	})
}

// Size is how many bytes the module's lists take, its own bytes apart. The error is ErrClosed.
func (m *Module) Size() (uint64, error) {
	m.mutex.Lock()
	defer m.mutex.Unlock()
	if m.bytes == nil {
		return 0, ErrClosed
	}
	return uint64(C.gate_module_size(m.handle)), nil
}

// Exports is what the module exports, in its order. The error is ErrClosed.
func (m *Module) Exports() ([]Export, error) {
	m.mutex.Lock()
	defer m.mutex.Unlock()
	if m.bytes == nil {
		return nil, ErrClosed
	}
	exports := make([]Export, C.gate_module_export_count(m.handle))
	for number := range exports {
		var told C.gate_export
		expectOK(C.gate_module_export(m.handle, C.uint64_t(number), &told))
		exports[number] = m.exportOf(m.exportName(number), told)
	}
	return exports, nil
}

// Imports is what the module imports, in its order. No call of a module with imports runs. The error is ErrClosed.
func (m *Module) Imports() ([]Import, error) {
	m.mutex.Lock()
	defer m.mutex.Unlock()
	if m.bytes == nil {
		return nil, ErrClosed
	}
	imports := make([]Import, C.gate_module_import_count(m.handle))
	functions := C.uint32_t(0)
	for number := range imports {
		var told C.gate_import
		expectOK(C.gate_module_import(m.handle, C.uint64_t(number), &told))
		found := Import{Module: m.importModule(number), Name: m.importName(number), Kind: kindOf(told.kind)}
		if found.Kind == Function {
			found.Params, found.Results = m.typesOf(functions, told.params, told.results)
			functions++
		}
		imports[number] = found
	}
	return imports, nil
}

// Measures are numbers by which a host may refuse the module. The error is ErrClosed.
func (m *Module) Measures() (Measures, error) {
	m.mutex.Lock()
	defer m.mutex.Unlock()
	if m.bytes == nil {
		return Measures{}, ErrClosed
	}
	var told C.gate_measures
	expectOK(C.gate_module_measures(m.handle, &told))
	return Measures{uint64(told.tokens), uint64(told.locals), uint64(told.values)}, nil
}

// Find is the export of that name, and whether there is one. The error is ErrClosed.
func (m *Module) Find(name string) (Export, bool, error) {
	m.mutex.Lock()
	defer m.mutex.Unlock()
	if m.bytes == nil {
		return Export{}, false, ErrClosed
	}
	told, found := m.told([]byte(name))
	if !found {
		return Export{}, false, nil
	}
	return m.exportOf(name, told), true, nil
}

// Starts says whether a call would have an instance: nil, or a NotStarted, a SettingsError, ErrNoMemory or ErrClosed. Nothing runs: a
// start function may still end each call.
func (m *Module) Starts(settings Settings) error {
	limits, err := settings.inC()
	if err != nil {
		return err
	}
	m.mutex.Lock()
	defer m.mutex.Unlock()
	if m.bytes == nil {
		return ErrClosed
	}
	var ended C.gate_call
	expectOK(C.gate_module_starts(m.handle, &limits, &ended))
	return endOf(&ended)
}

// told is the numbers of the export of that name, and whether there is one.
func (m *Module) told(name []byte) (C.gate_export, bool) {
	var told C.gate_export
	at, length := inC(name)
	status := C.gate_module_find(m.handle, at, length, &told)
	if status == C.GATE_NOTHING {
		return told, false
	}
	expectOK(status)
	return told, true
}

func (m *Module) exportName(number int) string {
	return nameBy(func(out *C.uint8_t, room C.size_t, length *C.size_t) C.uint32_t {
		return C.gate_module_export_name(m.handle, C.uint64_t(number), out, room, length)
	})
}

func (m *Module) importModule(number int) string {
	return nameBy(func(out *C.uint8_t, room C.size_t, length *C.size_t) C.uint32_t {
		return C.gate_module_import_module(m.handle, C.uint64_t(number), out, room, length)
	})
}

func (m *Module) importName(number int) string {
	return nameBy(func(out *C.uint8_t, room C.size_t, length *C.size_t) C.uint32_t {
		return C.gate_module_import_name(m.handle, C.uint64_t(number), out, room, length)
	})
}

func nameBy(write func(out *C.uint8_t, room C.size_t, length *C.size_t) C.uint32_t) string {
	for room := C.size_t(firstName); ; {
		name := make([]byte, room)
		status := write((*C.uint8_t)(unsafe.Pointer(&name[0])), room, &room)
		if status != C.GATE_SHORT_BUFFER {
			expectOK(status)
			return string(name[:room])
		}
	}
}

func (m *Module) exportOf(name string, told C.gate_export) Export {
	export := Export{Name: name, Kind: kindOf(told.kind), Index: uint32(told.index)}
	if export.Kind == Function {
		export.Params, export.Results = m.typesOf(told.index, told.params, told.results)
	}
	return export
}

func kindOf(kind C.uint32_t) ExportKind {
	if ExportKind(kind) > Global {
		panic(beyondInterface("kind of item", kind))
	}
	return ExportKind(kind)
}

// typesOf is the types of the function of that index, which has so many parameters and results.
func (m *Module) typesOf(function, params, results C.uint32_t) (of, give []ValueType) {
	paramBytes, resultBytes := make([]byte, params), make([]byte, results)
	paramsAt, paramsRoom := inC(paramBytes)
	resultsAt, resultsRoom := inC(resultBytes)
	expectOK(C.gate_module_types(m.handle, function, paramsAt, paramsRoom, resultsAt, resultsRoom))
	return typesOf(paramBytes), typesOf(resultBytes)
}

func typesOf(bytes []byte) []ValueType {
	types := make([]ValueType, len(bytes))
	for place, of := range bytes {
		types[place] = ValueType(of)
	}
	return types
}

// expectOK is for a function that has no other status to give.
func expectOK(status C.uint32_t) {
	if status != C.GATE_OK {
		panic(beyondInterface("status", status))
	}
}
