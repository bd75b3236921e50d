// Glyphs of a font from Go, by cgo.
//
//	go run glyphs.go FONT PPEM TEXT
//
// prints the text as a picture, a character after the other.
// In a checkout: CGO_CFLAGS=-I$PWD/include CGO_LDFLAGS=-L$PWD go run examples/glyphs.go FONT PPEM TEXT
// docs/LIBRARY.md says how to make libmkstrike.a there.
package main

/*
#cgo LDFLAGS: -lmkstrike
#include <mkstrike.h>
*/
import "C"

import (
	"fmt"
	"os"
	"strconv"
	"unsafe"
)

// Refusal says why there is no glyph.
type Refusal C.struct_mkstrike_refused

func (why *Refusal) Error() string {
	return "refused: " + reason(uint32(why.number))
}

// reason is the name of a number that a call returned.
func reason(number uint32) string {
	var name [24]C.char
	C.mkstrike_reason(C.uint32_t(number), &name[0], C.size_t(len(name)))
	return fmt.Sprint(number, " ", C.GoString(&name[0]))
}

// first is the address of a slice's first byte, or nil.
func first(bytes []byte) *C.uint8_t {
	if len(bytes) == 0 {
		return nil
	}
	return (*C.uint8_t)(unsafe.Pointer(&bytes[0]))
}

// Glyph is the numbers of a character's glyph and its rows from the top, a byte a pixel.
type Glyph struct {
	Width, Height, Left, Bottom, Advance int
	Pixels                               []byte
}

// Make makes the glyph of a character; nil if the font does not have it.
func Make(font []byte, ppem uint16, mode uint32, code rune) (*Glyph, error) {
	var info C.struct_mkstrike_glyph_info
	var why Refusal
	pixels := make([]byte, 4096)
	for {
		status := C.mkstrike_glyph(first(font), C.size_t(len(font)), 0, C.uint16_t(ppem), C.uint32_t(mode), C.uint32_t(code), first(pixels),
			C.size_t(len(pixels)), &info, (*C.struct_mkstrike_refused)(&why))
		size := int(info.stride) * int(info.height)
		switch {
		case status == C.MKSTRIKE_MISSING:
			return nil, nil
		case status != C.MKSTRIKE_DONE:
			return nil, &why
		case size > len(pixels):
			pixels = make([]byte, size)
		default:
			return &Glyph{int(info.width), int(info.height), int(info.left), int(info.bottom), int(info.dwidth), pixels[:size]}, nil
		}
	}
}

func fail(why error) {
	fmt.Fprintln(os.Stderr, why)
	os.Exit(1)
}

func main() {
	if len(os.Args) != 4 {
		fmt.Fprintln(os.Stderr, "usage: glyphs FONT PPEM TEXT")
		os.Exit(2)
	}
	font, err := os.ReadFile(os.Args[1])
	if err != nil {
		fail(err)
	}
	ppem, err := strconv.ParseUint(os.Args[2], 10, 16)
	if err != nil {
		fail(err)
	}
	for _, code := range os.Args[3] {
		glyph, err := Make(font, uint16(ppem), C.MKSTRIKE_HINTED|C.MKSTRIKE_DROPOUT_FONT, code)
		if err != nil {
			fail(err)
		}
		if glyph == nil {
			fmt.Printf("U+%04X missing\n", code)
			continue
		}
		fmt.Printf("U+%04X advance %d\n", code, glyph.Advance)
		for row := 0; row < glyph.Height; row++ {
			line := make([]byte, glyph.Width)
			for column := range line {
				line[column] = ".#"[glyph.Pixels[row*glyph.Width+column]&1]
			}
			fmt.Println(string(line))
		}
	}
}
