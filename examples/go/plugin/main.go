// A host of plug-ins that take and give texts, as those of examples/guests do.
//
// The plug-in exports `alloc(length)`, which gives the address of `length` free bytes, or 0; and `handle(address, length)`, which
// gives the answer's address in the high 32 bits, and its length in the low ones.
package main

import (
	"errors"
	"fmt"
	"math"
	"os"

	"example.org/gate"
)

const usage = `usage: plugin MODULE TEXT ..   prints what the plug-in answers to each text, as in
       plugin ../guests/upper.wasm 'hello, world' again`

var (
	errNoRoom   = errors.New("the plug-in has no room for the text")
	errNoAnswer = errors.New("the plug-in gives no answer") // it gives -1, as `pick` does where there is no such key
	errWords    = errors.New(usage)
)

// ask is what a plug-in answers to a text. It may be hostile: whatever it tells, the host reads the plug-in's memory alone.
func ask(plugin *gate.Instance, text []byte, limits gate.Settings) ([]byte, error) {
	if len(text) > math.MaxInt32 {
		return nil, errNoRoom
	}
	length := gate.I32(len(text))
	address, err := gate.One[uint32](plugin.Call("alloc", limits, length))
	if err != nil {
		return nil, fmt.Errorf("alloc: %w", err)
	}
	if address == 0 {
		return nil, errNoRoom
	}
	if err := plugin.Write(uint64(address), text); err != nil {
		return nil, err
	}
	answer, err := gate.One[uint64](plugin.Call("handle", limits, gate.I32(address), length))
	if err != nil {
		return nil, fmt.Errorf("handle: %w", err)
	}
	if answer == math.MaxUint64 {
		return nil, errNoAnswer
	}
	return plugin.ReadBytes(answer>>32, answer&0xFFFF_FFFF)
}

func opened(path string, limits gate.Settings) (*gate.Instance, error) {
	bytes, err := os.ReadFile(path)
	if err != nil {
		return nil, err
	}
	module, err := gate.NewModule(bytes)
	if err != nil {
		return nil, err
	}
	// The instance holds the module too.
	defer module.Close()
	return module.NewInstance(limits)
}

func answer(words []string) error {
	if len(words) == 0 {
		return errWords
	}
	limits := gate.Settings{Fuel: 1_000_000, Frames: 1_024, Pages: 64}
	plugin, err := opened(words[0], limits)
	if err != nil {
		return err
	}
	defer plugin.Close()
	for _, word := range words[1:] {
		if text, err := ask(plugin, []byte(word), limits); err != nil {
			fmt.Fprintln(os.Stderr, "plugin:", err)
		} else {
			fmt.Printf("%s\n", text)
		}
		// The next text meets a fresh plug-in, with all its room.
		if err := plugin.Reset(); err != nil {
			return err
		}
	}
	return nil
}

func main() {
	if err := answer(os.Args[1:]); err != nil {
		fmt.Fprintln(os.Stderr, err)
		os.Exit(1)
	}
}
