// go-yaml beside the others: go_yaml COMMAND FILE, where COMMAND is format or load.
package main

import (
	"bytes"
	"io"
	"os"

	"gopkg.in/yaml.v3"
)

func main() {
	text, err := os.ReadFile(os.Args[2])
	if err != nil {
		panic(err)
	}
	decoder, encoder := yaml.NewDecoder(bytes.NewReader(text)), yaml.NewEncoder(os.Stdout)
	for {
		var node yaml.Node
		var value interface{}
		if os.Args[1] == "format" {
			err = decoder.Decode(&node)
		} else {
			err = decoder.Decode(&value)
		}
		if err == io.EOF {
			break
		}
		if err != nil {
			panic(err)
		}
		if os.Args[1] == "format" {
			if err = encoder.Encode(&node); err != nil {
				panic(err)
			}
		}
	}
	encoder.Close()
}
