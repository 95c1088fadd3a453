// Go's agent (golang.org/x/crypto/ssh/agent) at a Unix socket, for measurements: each connection in a goroutine.
// GO111MODULE=off GOPATH=/usr/share/gocode go build -o agent plain/lasting_agent.go; agent SOCKET
package main

import (
	"log"
	"net"
	"os"

	"golang.org/x/crypto/ssh/agent"
)

func main() {
	listener, err := net.Listen("unix", os.Args[1])
	if err != nil {
		log.Fatal(err)
	}
	keys := agent.NewKeyring()
	for {
		stream, err := listener.Accept()
		if err != nil {
			log.Fatal(err)
		}
		go func() {
			agent.ServeAgent(keys, stream)
			stream.Close()
		}()
	}
}
