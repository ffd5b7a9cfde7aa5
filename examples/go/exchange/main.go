// A host that a plug-in may ask for more, as ../guests/greet.wasm does.
//
// An answer that begins with `?` is a wish: it names a key, and the plug-in is called again with the key's value. Any other is the last
// one, and is printed without its first byte. All calls together have the fuel that is given.
package main

import (
	"bytes"
	"errors"
	"fmt"
	"math"
	"os"
	"strconv"
	"strings"

	"example.org/gate"
)

const usage = `usage: exchange MODULE TEXT FUEL [KEY=VALUE ..]   prints the last answer, as in
       exchange ../guests/greet.wasm Hello 1000 name=World`

var errNoRoom = errors.New("the plug-in has no room for the text")

// asked is a plug-in, and the limits of its next call.
type asked struct {
	plugin *gate.Instance
	limits gate.Settings
}

// call calls an export, whose cost is gone from the fuel.
func (it *asked) call(name string, args ...gate.Value) (gate.Call, error) {
	made, err := it.plugin.Call(name, it.limits, args...)
	it.limits.Fuel -= made.Fuel
	return made, err
}

// ask is what the plug-in answers to a text.
func (it *asked) ask(text []byte) ([]byte, error) {
	if len(text) > math.MaxInt32 {
		return nil, errNoRoom
	}
	length := gate.I32(len(text))
	address, err := gate.One[uint32](it.call("alloc", length))
	if err != nil {
		return nil, err
	}
	if address == 0 {
		return nil, errNoRoom
	}
	if err := it.plugin.Write(uint64(address), text); err != nil {
		return nil, err
	}
	answer, err := gate.One[uint64](it.call("handle", gate.I32(address), length))
	if err != nil {
		return nil, err
	}
	return it.plugin.ReadBytes(answer>>32, answer&0xFFFF_FFFF)
}

// exchange is the last answer. There is no reset between the calls: the plug-in keeps in its memory how far it is.
func (it *asked) exchange(text []byte, known map[string]string) ([]byte, error) {
	answer, err := it.ask(text)
	for err == nil && bytes.HasPrefix(answer, []byte("?")) {
		answer, err = it.ask([]byte(known[string(answer[1:])]))
	}
	if err != nil || len(answer) == 0 {
		return nil, err
	}
	return answer[1:], nil
}

func answer(words []string) ([]byte, error) {
	if len(words) < 3 {
		return nil, errors.New(usage)
	}
	fuel, err := strconv.ParseUint(words[2], 10, 32)
	if err != nil {
		return nil, err
	}
	module, err := os.ReadFile(words[0])
	if err != nil {
		return nil, err
	}
	limits := gate.Settings{Fuel: uint32(fuel), Frames: 1_024, Pages: 32}
	judged, err := gate.NewModule(module)
	if err != nil {
		return nil, err
	}
	defer judged.Close()
	plugin, err := judged.NewInstance(limits)
	if err != nil {
		return nil, err
	}
	defer plugin.Close()
	known := map[string]string{}
	for _, word := range words[3:] {
		key, value, _ := strings.Cut(word, "=")
		known[key] = value
	}
	return (&asked{plugin, limits}).exchange([]byte(words[1]), known)
}

func main() {
	text, err := answer(os.Args[1:])
	if err != nil {
		fmt.Fprintln(os.Stderr, "exchange:", err)
		os.Exit(1)
	}
	fmt.Printf("%s\n", text)
}
