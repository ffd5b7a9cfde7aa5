package main

func Example_upper() {
	answer([]string{"../../guests/upper.wasm", "hello, world", "again"})
	// Output:
	// HELLO, WORLD
	// AGAIN
}

func Example_pick() {
	answer([]string{"../../guests/pick.wasm", "name\n{\"name\": \"gate\", \"length\": 17}", "length\n{\"length\": 17}", "none\n{}"})
	// Output:
	// gate
	// 17
}
