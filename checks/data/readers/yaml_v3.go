// Reads a YAML stream with yaml.v3, and writes its documents as a JSON list in which all scalars are strings.
package main

import (
	"encoding/json"
	"fmt"
	"io"
	"os"
	"strings"

	"gopkg.in/yaml.v3"
)

func shown(node *yaml.Node) string {
	parts := []string{}
	switch node.Kind {
	case yaml.DocumentNode:
		return shown(node.Content[0])
	case yaml.SequenceNode:
		for _, item := range node.Content {
			parts = append(parts, shown(item))
		}
		return "[" + strings.Join(parts, ",") + "]"
	case yaml.MappingNode:
		for place := 0; place < len(node.Content); place += 2 {
			parts = append(parts, shown(node.Content[place])+":"+shown(node.Content[place+1]))
		}
		return "{" + strings.Join(parts, ",") + "}"
	}
	text, err := json.Marshal(node.Value)
	if err != nil {
		panic(err)
	}
	return string(text)
}

func main() {
	decoder := yaml.NewDecoder(os.Stdin)
	documents := []string{}
	for {
		var node yaml.Node
		err := decoder.Decode(&node)
		if err == io.EOF {
			break
		}
		if err != nil {
			panic(err)
		}
		documents = append(documents, shown(&node))
	}
	fmt.Println("[" + strings.Join(documents, ",") + "]")
}
