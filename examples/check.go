// Checks the demo's proof, and the same with one byte changed: prints yes, then no.
package main

// #include <gawerunoa.h>
import "C"

import (
	"fmt"
	"os"
	"unsafe"
)

func contents(folder string, name string) []byte {
	bytes, err := os.ReadFile(folder + "/" + name + ".bin")
	if err != nil {
		fmt.Fprintln(os.Stderr, err)
		os.Exit(2)
	}
	return bytes
}

func start(bytes []byte) (*C.uint8_t, C.size_t) {
	if len(bytes) == 0 {
		return nil, 0
	}
	return (*C.uint8_t)(unsafe.Pointer(&bytes[0])), C.size_t(len(bytes))
}

func told(proof []byte, operation []byte, root []byte) string {
	p, pn := start(proof)
	o, on := start(operation)
	r, rn := start(root)
	switch C.gawerunoa_check_operation(C.GAWERUNOA_MMR, C.GAWERUNOA_SHA256, 1, 3, p, pn, o, on, r, rn) {
	case C.GAWERUNOA_YES:
		return "yes"
	case C.GAWERUNOA_NO:
		return "no"
	}
	return "refused, or out of memory"
}

func main() {
	folder := "examples/data"
	if len(os.Args) > 1 {
		folder = os.Args[1]
	}
	root, operation, proof := contents(folder, "root"), contents(folder, "operation"), contents(folder, "proof")
	fmt.Println(told(proof, operation, root))
	proof[len(proof)/2] ^= 1
	fmt.Println(told(proof, operation, root))
}
