package sazhonthil

/*
#include <stdint.h>
#include <stdlib.h>
#include "sazhonthil_ssh.h"
*/
import "C"

import (
	"runtime/cgo"
	"unsafe"
)

// callbacks are what the library asks while a connection is made.
type callbacks struct {
	config *Config
	err    error // of the first one that failed
}

func callbacksOf(own unsafe.Pointer) *callbacks {
	return cgo.Handle(uintptr(own)).Value().(*callbacks)
}

// goPassphrase returns a passphrase in memory of malloc, or NULL.
//
//export goPassphrase
func goPassphrase(own unsafe.Pointer, file *C.char) *C.char {
	it := callbacksOf(own)
	if it.config.Passphrase == nil {
		return nil
	}
	given, err := it.config.Passphrase(C.GoString(file))
	if err != nil {
		if it.err == nil {
			it.err = err
		}
		return nil
	}
	return C.CString(given)
}

//export goAnswers
func goAnswers(own unsafe.Pointer, name, instruction *C.char, count C.size_t, prompts *C.sazh_prompt, answers **C.char) C.bool {
	it := callbacksOf(own)
	asked := make([]Prompt, int(count))
	if count != 0 {
		for i, one := range unsafe.Slice(prompts, int(count)) {
			asked[i] = Prompt{C.GoString(one.text), bool(one.echo)}
		}
	}
	said, err := it.config.Answers(C.GoString(name), C.GoString(instruction), asked)
	if err == nil && len(said) != len(asked) {
		err = Misuse
	}
	if err != nil {
		it.err = err
		return false
	}
	if count != 0 {
		to := unsafe.Slice(answers, int(count))
		for i, one := range said {
			to[i] = C.CString(one)
		}
	}
	return true
}

//export goBanner
func goBanner(own unsafe.Pointer, text *C.char, size C.size_t) {
	callbacksOf(own).config.Banner(C.GoStringN(text, C.int(size)))
}
