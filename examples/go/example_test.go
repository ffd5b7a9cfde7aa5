package gate_test

import (
	"fmt"
	"os"

	"example.org/gate"
)

func must[T any](value T, err error) T {
	if err != nil {
		panic(err)
	}
	return value
}

// A plug-in gets a text, and gives another one, through its memory.
func ExampleInstance() {
	limits := gate.DefaultSettings()
	module := must(gate.NewModule(must(os.ReadFile("../guests/upper.wasm"))))
	defer module.Close()
	plugin := must(module.NewInstance(limits))
	defer plugin.Close()
	address := must(gate.One[uint32](plugin.Call("alloc", limits, gate.I32(5))))
	if err := plugin.Write(uint64(address), []byte("hello")); err != nil {
		panic(err)
	}
	answer := must(gate.One[uint64](plugin.Call("handle", limits, gate.I32(address), gate.I32(5))))
	fmt.Printf("%s\n", must(plugin.ReadBytes(answer>>32, answer&0xFFFF_FFFF)))
	// Output: HELLO
}
