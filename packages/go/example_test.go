package gawerunoa_test

import (
	"fmt"
	"os"

	"gawerunoa"
)

func contents(name string) []byte {
	bytes, err := os.ReadFile("testdata/" + name + ".bin")
	if err != nil {
		panic(err)
	}
	return bytes
}

// The root of eight operations, the one at location 3, and the proof that it stands there and is active.
func ExampleCheckOperation() {
	root, operation, proof := contents("root"), contents("operation"), contents("proof")
	agreed := gawerunoa.Agreed{Family: gawerunoa.MMR, Hash: gawerunoa.SHA256, ChunkSize: 1}
	fmt.Println(gawerunoa.CheckOperation(agreed, 3, proof, operation, root))
	fmt.Println(gawerunoa.CheckOperation(agreed, 4, proof, operation, root))
	// Output:
	// true <nil>
	// false <nil>
}
