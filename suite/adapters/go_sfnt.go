// Go's golang.org/x/image/font/sfnt as a tool under test (Debian: golang-golang-x-image-dev): characters, advances, and outlines as paths. It runs
// no programs, draws no pixels, and scales by itself. It reads no font without a table `post`, which the suite's fonts leave out: the adapter puts
// one in. Built by `go_sfnt` beside this file.
package main

import (
	"encoding/binary"
	"os"

	"golang.org/x/image/font"
	"golang.org/x/image/font/sfnt"
	"golang.org/x/image/math/fixed"
)

// The word of each segment, and how many points it has.
var words = map[sfnt.SegmentOp]string{sfnt.SegmentOpMoveTo: "move", sfnt.SegmentOpLineTo: "line", sfnt.SegmentOpQuadTo: "quad"}
var points = map[sfnt.SegmentOp]int{sfnt.SegmentOpMoveTo: 1, sfnt.SegmentOpLineTo: 1, sfnt.SegmentOpQuadTo: 2}

// The steps of a path. The library's y grows downwards.
func steps(segments sfnt.Segments) [][]interface{} {
	path := [][]interface{}{}
	for _, segment := range segments {
		step := []interface{}{words[segment.Op]}
		for _, place := range segment.Args[:points[segment.Op]] {
			step = append(step, int(place.X), -int(place.Y))
		}
		path = append(path, step)
	}
	return path
}

var u16, u32, setU32 = binary.BigEndian.Uint16, binary.BigEndian.Uint32, binary.BigEndian.PutUint32

// The font's file with a table `post` of version 3 in a face's directory, or the file itself if the directory is cut. The new directory and table
// stand before all tables, and so the offsets of the face's tables grow by their size.
func withPost(data []byte, face int) []byte {
	const headerSize, recordSize, postSize = 12, 16, 32
	head, at := 0, 0
	if len(data) >= headerSize && string(data[:4]) == "ttcf" {
		faces := int(u32(data[8:]))
		head = headerSize + 4*faces
		if face >= faces || len(data) < head {
			return data
		}
		at = int(u32(data[headerSize+4*face:]))
	}
	if len(data) < at+headerSize {
		return data
	}
	count := int(u16(data[at+4:]))
	end := at + headerSize + recordSize*count
	if len(data) < end {
		return data
	}
	size := headerSize + recordSize*(count+1) + postSize
	post := append([]byte("post"), make([]byte, recordSize-4)...)
	setU32(post[8:], uint32(head+size-postSize))
	setU32(post[12:], postSize)

	made := append([]byte{}, data[:head]...)
	if head > 0 {
		setU32(made[headerSize+4*face:], uint32(head))
	}
	made = append(made, data[at:at+headerSize]...)
	binary.BigEndian.PutUint16(made[head+4:], uint16(count+1))
	placed := false
	for records := data[at+headerSize : end]; len(records) > 0; records = records[recordSize:] {
		if !placed && string(records[:4]) > "post" {
			made, placed = append(made, post...), true
		}
		record := append([]byte{}, records[:recordSize]...)
		setU32(record[8:], u32(record[8:])+uint32(size))
		made = append(made, record...)
	}
	if !placed {
		made = append(made, post...)
	}
	made = append(made, 0, 3, 0, 0)
	made = append(made, make([]byte, postSize-4)...)
	return append(made, data[head:]...)
}

func answer(asked request) fields {
	if asked.Hinted {
		return fields{"unsupported": "hinting"}
	}
	if asked.Dropout != false {
		return fields{"unsupported": "drop-out control"}
	}
	data, fault := os.ReadFile(asked.Font)
	if fault != nil {
		return refusal(fault)
	}
	collection, fault := sfnt.ParseCollection(withPost(data, asked.Face))
	if fault != nil {
		return refusal(fault)
	}
	face, fault := collection.Font(asked.Face)
	if fault != nil {
		return refusal(fault)
	}
	glyph := sfnt.GlyphIndex(asked.Glyph)
	if asked.Char != nil {
		if glyph, fault = face.GlyphIndex(nil, *asked.Char); fault != nil {
			return refusal(fault)
		}
		if glyph == 0 {
			return fields{"missing": true}
		}
	}
	advance, fault := face.GlyphAdvance(nil, glyph, fixed.I(asked.Ppem), font.HintingNone)
	if fault != nil {
		return refusal(fault)
	}
	segments, fault := face.LoadGlyph(nil, glyph, fixed.I(asked.Ppem), nil)
	if fault != nil {
		return refusal(fault)
	}
	return fields{"advance": int(advance), "path": steps(segments)}
}
