// A host in small: it judges and runs modules by libgate, in its own process.
package main

import (
	"bufio"
	"errors"
	"fmt"
	"io"
	"os"
	"strconv"
	"strings"

	"example.org/gate"
)

const usage = `usage: gate-host check -                              judges the files whose names come on standard input
       gate-host run MODULE CALLS FUEL FRAMES PAGES   runs the calls of a text
       gate-host call MODULE NAME [i32:N|i64:N ..]    calls an export`

// failure is why there is no answer, and the exit status for it.
type failure struct {
	status int
	text   string
}

func (f failure) Error() string { return f.text }

var wrongWords = failure{64, usage}

func read(path string) ([]byte, error) {
	bytes, err := os.ReadFile(path)
	if err != nil {
		return nil, failure{74, "gate-host: cannot read " + path}
	}
	return bytes, nil
}

func write(text string) error {
	if _, err := os.Stdout.WriteString(text); err != nil {
		return failure{74, "gate-host: write failed"}
	}
	return nil
}

// check prints the verdict line of each file that is named on standard input, and goes on where there is none.
func check() (int, error) {
	status, names := 0, bufio.NewReader(os.Stdin)
	for {
		name, end := names.ReadString('\n')
		if end == io.EOF && name == "" {
			return status, nil
		}
		if end != nil && end != io.EOF {
			return 0, failure{74, "gate-host: cannot read standard input"}
		}
		line, code := verdictLine(strings.TrimSuffix(name, "\n"))
		if code != 0 {
			status = code
		}
		if err := write(line + "\n"); err != nil {
			return 0, err
		}
	}
}

// verdictLine is the line of a file, and a status where it is no verdict.
func verdictLine(path string) (string, int) {
	module, err := read(path)
	if err != nil {
		return "cannot be read", 74
	}
	var refusal gate.Refusal
	switch err := gate.Check(module); {
	case err == nil:
		return "accepted", 0
	case errors.As(err, &refusal):
		return refusal.Error(), 0
	default:
		return "no memory", 70
	}
}

// run prints the report of a text of calls.
func run(words []string) (int, error) {
	settings, err := settingsOf(words[2:])
	if err != nil {
		return 0, err
	}
	module, err := read(words[0])
	if err != nil {
		return 0, err
	}
	calls, err := read(words[1])
	if err != nil {
		return 0, err
	}
	report, err := gate.Run(module, calls, settings)
	if err != nil {
		return 0, err
	}
	return int(report.Status), write(report.Text)
}

func settingsOf(words []string) (gate.Settings, error) {
	var limits [3]uint32
	for place, word := range words {
		number, err := strconv.ParseUint(word, 10, 32)
		if err != nil {
			return gate.Settings{}, wrongWords
		}
		limits[place] = uint32(number)
	}
	return gate.Settings{Fuel: limits[0], Frames: limits[1], Pages: limits[2]}, nil
}

// call prints how a call ends, as a report has it.
func call(path, name string, words []string) (int, error) {
	var args []gate.Value
	for _, word := range words {
		value, err := gate.ParseValue(word)
		if err != nil {
			return 0, wrongWords
		}
		args = append(args, value)
	}
	bytes, err := read(path)
	if err != nil {
		return 0, err
	}
	module, err := gate.NewModule(bytes)
	var refusal gate.Refusal
	if errors.As(err, &refusal) {
		return 2, write(refusal.Error() + "\n")
	}
	if err != nil {
		return 0, err
	}
	defer module.Close()
	line, err := endLine(module.Call(name, gate.DefaultSettings(), args...))
	if err != nil {
		return 0, err
	}
	return 0, write(line + "\n")
}

// endLine is how a call ended, or the error that says that there is no answer.
func endLine(ended gate.Call, err error) (string, error) {
	switch why := err.(type) {
	case nil:
		var texts []string
		for _, value := range ended.Results {
			texts = append(texts, value.String())
		}
		return strings.TrimSuffix("values "+strings.Join(texts, ","), " ") + fmt.Sprintf(" fuel %d", ended.Fuel), nil
	case gate.NotStarted:
		return why.Error(), nil
	case gate.Trap:
		return fmt.Sprintf("%v fuel %d", why, ended.Fuel), nil
	case gate.End:
		if why == gate.OutOfFuel || why == gate.OutOfFrames {
			return fmt.Sprintf("%v fuel %d", why, ended.Fuel), nil
		}
		return why.Error(), nil
	}
	return "", err
}

func answer(words []string) (int, error) {
	switch {
	case len(words) == 2 && words[0] == "check" && words[1] == "-":
		return check()
	case len(words) == 6 && words[0] == "run":
		return run(words[1:])
	case len(words) >= 3 && words[0] == "call":
		return call(words[1], words[2], words[3:])
	}
	return 0, wrongWords
}

// failed is the exit status for an error, which it tells.
func failed(err error) int {
	var why failure
	switch {
	case errors.As(err, &why):
		fmt.Fprintln(os.Stderr, why.text)
		return why.status
	case errors.Is(err, gate.ErrNoMemory):
		fmt.Fprintln(os.Stderr, "gate-host: no memory")
		return 70
	}
	fmt.Fprintln(os.Stderr, "gate-host:", err)
	return 64
}

func main() {
	status, err := answer(os.Args[1:])
	if err != nil {
		status = failed(err)
	}
	os.Exit(status)
}
