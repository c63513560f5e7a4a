// judge CERT STORE NOW: what the library says of a certificate, as `mtc verify` does.
package main

// #include "mtc.h"
import "C"

import (
	"fmt"
	"os"
	"strconv"
	"unsafe"
)

func bytesOf(name string) []byte {
	bytes, err := os.ReadFile(name)
	if err != nil {
		fmt.Fprintln(os.Stderr, err)
		os.Exit(5)
	}
	return bytes
}

// The first byte of a slice; a null pointer where there is none, which the header allows.
func pointer(bytes []byte) *C.uint8_t {
	if len(bytes) == 0 {
		return nil
	}
	return (*C.uint8_t)(unsafe.Pointer(&bytes[0]))
}

// What a call that copies out a name gives; the number, where the library knows no name.
func named(number uint64, call func(out *C.uint8_t, length *C.uint64_t) C.uint32_t) string {
	var length C.uint64_t
	room := make([]byte, C.MTC_MAX_NAME)
	if call(pointer(room), &length) != C.MTC_DONE {
		return strconv.FormatUint(number, 10)
	}
	return string(room[:length])
}

// The refusal by its name, and what belongs to it: the name of a field, or a number.
func refusalOf(verdict C.struct_mtc_verdict) string {
	name := named(uint64(verdict.refusal), func(out *C.uint8_t, length *C.uint64_t) C.uint32_t {
		return C.mtc_refusal_name(verdict.refusal, out, C.MTC_MAX_NAME, length)
	})
	if verdict.refusal != C.MTC_MISSING && verdict.refusal != C.MTC_BAD_VALUE {
		return fmt.Sprint(name, " ", uint64(verdict.number))
	}
	return name + " " + named(uint64(verdict.number), func(out *C.uint8_t, length *C.uint64_t) C.uint32_t {
		return C.mtc_field_name(verdict.number, out, C.MTC_MAX_NAME, length)
	})
}

func main() {
	if len(os.Args) != 4 {
		fmt.Fprintln(os.Stderr, "judge CERT STORE NOW")
		os.Exit(1)
	}
	if C.mtc_abi() != C.MTC_ABI {
		fmt.Fprintln(os.Stderr, "judge: the library has interface", uint32(C.mtc_abi()))
		os.Exit(1)
	}
	now, err := strconv.ParseInt(os.Args[3], 10, 64)
	if err != nil {
		fmt.Fprintln(os.Stderr, err)
		os.Exit(1)
	}
	cert, store := bytesOf(os.Args[1]), bytesOf(os.Args[2])
	var verdict C.struct_mtc_verdict
	status := C.mtc_judge(pointer(cert), C.size_t(len(cert)), pointer(store), C.size_t(len(store)),
		C.int64_t(now), &verdict)
	switch status {
	case C.MTC_DONE:
		fmt.Println("accepted", uint64(verdict.index))
	case C.MTC_NO_MEMORY:
		fmt.Fprintln(os.Stderr, "judge: no memory")
	default:
		fmt.Println("not accepted:", refusalOf(verdict))
	}
	os.Exit(int(status))
}
