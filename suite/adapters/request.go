// What the tools in Go have in common: requests of the protocol, and the loop that answers them by `answer`.
package main

import (
	"bufio"
	"encoding/json"
	"fmt"
	"os"
)

type request struct {
	ID      string      `json:"id"`
	Font    string      `json:"font"`
	Face    int         `json:"face"`
	Ppem    int         `json:"ppem"`
	Glyph   int         `json:"glyph"`
	Char    *rune       `json:"char"`
	Hinted  bool        `json:"hinted"`
	Dropout interface{} `json:"dropout"`
}

type fields map[string]interface{}

func refusal(fault error) fields {
	return fields{"refusal": fields{"text": fault.Error()}}
}

func main() {
	fmt.Println(`{"protocol": 2}`)
	lines := bufio.NewReader(os.Stdin)
	out := json.NewEncoder(os.Stdout)
	for {
		line, fault := lines.ReadBytes('\n')
		if fault != nil {
			return
		}
		var asked request
		if fault := json.Unmarshal(line, &asked); fault != nil {
			panic(fault)
		}
		found := answer(asked)
		found["id"] = asked.ID
		if fault := out.Encode(found); fault != nil {
			panic(fault)
		}
	}
}
