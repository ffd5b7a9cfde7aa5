package gate

// #include "gate.h"
import "C"

import "fmt"

// Settings are the limits of each call.
type Settings struct {
	Fuel   uint32 // how many functions may be entered and loops begun: at most MostFuel
	Frames uint32 // how many functions may be entered and not yet left: 1 to MostFrames
	Pages  uint32 // how many pages of 65,536 bytes the memory may have: at most MostPages
}

// The greatest limits.
const (
	MostFuel   = 1_000_000_000
	MostFrames = 4_096
	MostPages  = 1_024
)

// DefaultSettings are the limits of the program `gate` where no option says others.
func DefaultSettings() Settings {
	return Settings{Fuel: 1_000_000, Frames: 1_024, Pages: 256}
}

// SettingsError is the first limit that is out of its range.
type SettingsError struct {
	Limit              string // Fuel, Frames or Pages
	Given, Least, Most uint32
}

func (e SettingsError) Error() string {
	return fmt.Sprintf("%s %d is not from %d to %d", e.Limit, e.Given, e.Least, e.Most)
}

// inC is the settings as C takes them, where all are in range.
func (s Settings) inC() (C.gate_settings, error) {
	limits := []SettingsError{
		{"Fuel", s.Fuel, 0, MostFuel},
		{"Frames", s.Frames, 1, MostFrames},
		{"Pages", s.Pages, 0, MostPages},
	}
	for _, limit := range limits {
		if limit.Given < limit.Least || limit.Given > limit.Most {
			return C.gate_settings{}, limit
		}
	}
	return C.gate_settings{C.uint32_t(s.Fuel), C.uint32_t(s.Frames), C.uint32_t(s.Pages)}, nil
}
