package gate

// #include "gate.h"
import "C"

import "strings"

// Explanation is what is said of a module. As an error it says so in a sentence: the verdict, and why. errors.As finds its Refusal.
type Explanation struct {
	Refusal Refusal // the zero one of an accepted module
	Why     uint32  // a number of gate_why in gate.h; its hundreds are the kind of the refusal, and later libraries tell more kinds
	Text    string  // what `gate explain` prints
	numbers numbers
}

// numbers are those of the library; what is not told is the greatest.
type numbers struct {
	section, opcode                  C.uint32_t
	item, bodyFrom, bodyTo, from, to C.uint64_t
}

const (
	// firstTextRoom is room for most texts; a longer one is asked for once more.
	firstTextRoom = 1024
	// column is where the text of a line begins, after its key and blanks.
	column = 10
)

// Explain judges a module, and says of a refusal where and why. The error is ErrNoMemory.
func Explain(module []byte) (Explanation, error) {
	var said C.gate_explanation
	at, length := inC(module)
	status := C.gate_explain(at, length, &said)
	if status == C.GATE_NO_MEMORY {
		return Explanation{}, ErrNoMemory
	}
	if status != C.GATE_OK && status != C.GATE_MODULE_REFUSED {
		panic(beyondInterface("status", status))
	}
	text, err := textBy(func(out *C.uint8_t, room C.size_t, wanted *C.size_t) C.uint32_t {
		return C.gate_explain_text(at, length, out, room, wanted)
	})
	if err != nil {
		return Explanation{}, err
	}
	found := Explanation{Why: uint32(said.why), Text: text}
	if status == C.GATE_MODULE_REFUSED {
		found.Refusal = refusalOf(&said.verdict)
	}
	found.numbers = numbers{said.section, said.opcode, said.item, said.body_from, said.body_to, said.from, said.to}
	return found, nil
}

// textBy is the text that `write` makes of a module, with as much room as it needs.
func textBy(write func(out *C.uint8_t, room C.size_t, wanted *C.size_t) C.uint32_t) (string, error) {
	for room := C.size_t(firstTextRoom); ; {
		var wanted C.size_t
		text := make([]byte, room)
		out, _ := inC(text)
		switch status := write(out, room, &wanted); status {
		case C.GATE_OK, C.GATE_MODULE_REFUSED:
			return string(text[:wanted]), nil
		case C.GATE_SHORT_BUFFER:
			room = wanted
		case C.GATE_NO_MEMORY:
			return "", ErrNoMemory
		default:
			panic(beyondInterface("status", status))
		}
	}
}

// refused is the error for a module that the library refused.
func refused(module []byte) error {
	found, err := Explain(module)
	if err != nil {
		return err
	}
	return found
}

// Line is the text of the first line with that key, such as `token`; empty where there is none.
func (e Explanation) Line(key string) string {
	for _, line := range strings.Split(e.Text, "\n")[1:] {
		if len(line) > column && strings.TrimRight(line[:column], " ") == key {
			return line[column:]
		}
	}
	return ""
}

// Because is why the module is refused, in words.
func (e Explanation) Because() string { return e.Line("because") }

func (e Explanation) Error() string {
	verdict, _, _ := strings.Cut(e.Text, "\n")
	if because := e.Because(); because != "" {
		return verdict + ": " + because
	}
	return verdict
}

// Unwrap is the refusal; nothing of an accepted module.
func (e Explanation) Unwrap() error {
	if e.Refusal.Kind == 0 {
		return nil
	}
	return e.Refusal
}

// Offset is the offset of the first byte that is refused, or where reading stopped. As in the functions below false says that it is not
// told.
func (e Explanation) Offset() (uint64, bool) { return told(e.numbers.from) }

// Place is the token or the item that is refused: from one offset up to another one; where reading stopped these are one.
func (e Explanation) Place() (from, to uint64, isTold bool) {
	return uint64(e.numbers.from), uint64(e.numbers.to), e.numbers.from != C.GATE_NONE
}

// Body is where the refused body stands, without its size.
func (e Explanation) Body() (from, to uint64, isTold bool) {
	return uint64(e.numbers.bodyFrom), uint64(e.numbers.bodyTo), e.numbers.bodyFrom != C.GATE_NONE
}

// Section is the id of the section in which the rest stands.
func (e Explanation) Section() (uint32, bool) { return toldInShort(e.numbers.section) }

// Item is the place of the refused item in its section, from 0; of a body the refusal has the function.
func (e Explanation) Item() (uint64, bool) { return told(e.numbers.item) }

// Opcode is the first byte of the token that is refused, or with which no token begins.
func (e Explanation) Opcode() (uint32, bool) { return toldInShort(e.numbers.opcode) }

func told(number C.uint64_t) (uint64, bool) { return uint64(number), number != C.GATE_NONE }

func toldInShort(number C.uint32_t) (uint32, bool) { return uint32(number), number != C.GATE_NONE_32 }
