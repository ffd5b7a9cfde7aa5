package gate

// #include "gate.h"
import "C"

import "fmt"

// Kind is what is wrong with a module.
type Kind uint32

// The kinds of refusals, in the order of judging.
const (
	TooLarge          Kind = C.GATE_TOO_LARGE            // more than 16,777,216 bytes
	Malformed         Kind = C.GATE_MALFORMED            // the bytes spell no module, the insides of bodies aside
	BrokenRule        Kind = C.GATE_RULE                 // Rule is the least module rule that is broken
	BodyMalformed     Kind = C.GATE_BODY_MALFORMED       // the bytes of the body of Function spell none
	BodyTooManyLocals Kind = C.GATE_BODY_TOO_MANY_LOCALS // it declares more than 100,000 locals, parameters aside
	BodyIllTyped      Kind = C.GATE_BODY_ILL_TYPED       // it has no type, and Token says where
)

// Refusal is the first reason to refuse a module. Its text is the verdict line. Numbers that do not belong to its kind are 0.
type Refusal struct {
	Kind     Kind
	Rule     uint32 // 2 to 13
	Function uint32 // the least function whose body is refused; imported ones count first
	Token    uint64 // the first token that no completion can save, from 0; `end` and `else` are tokens
}

func refusalOf(verdict *C.gate_verdict) Refusal {
	if verdict.kind < C.GATE_TOO_LARGE || verdict.kind > C.GATE_BODY_ILL_TYPED {
		panic(beyondInterface("verdict", verdict.kind))
	}
	return Refusal{Kind(verdict.kind), uint32(verdict.rule), uint32(verdict.function), uint64(verdict.token)}
}

func (r Refusal) Error() string {
	switch r.Kind {
	case TooLarge:
		return "refused too-large"
	case Malformed:
		return "refused malformed"
	case BrokenRule:
		return fmt.Sprintf("refused rule %d", r.Rule)
	case BodyMalformed:
		return fmt.Sprintf("refused body %d malformed", r.Function)
	case BodyTooManyLocals:
		return fmt.Sprintf("refused body %d too-many-locals", r.Function)
	case BodyIllTyped:
		return fmt.Sprintf("refused body %d ill-typed at %d", r.Function, r.Token)
	}
	return fmt.Sprintf("refused for no reason of gate: %d", r.Kind)
}
