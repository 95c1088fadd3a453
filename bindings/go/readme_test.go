package sazhonthil

import (
	"fmt"
	"os"
	"os/exec"
	"path/filepath"
	"regexp"
	"strings"
	"testing"
)

// The lines of the README run as they stand, but for the names of the hosts and the key.
func TestReadme(t *testing.T) {
	text, err := os.ReadFile("../README.md")
	if err != nil {
		t.Skip("no README beside the module")
	}
	block := regexp.MustCompile("(?s)```go\n(.*?)```").FindStringSubmatch(string(text))
	if block == nil {
		t.Fatal("no lines in Go")
	}
	s := start(t, "sshd")
	with := fmt.Sprintf("&sazhonthil.Config{User: %q, KeyFiles: []string{%q}, KnownHosts: []string{%q}}", s.user, s.path("user"), s.known)
	lines := strings.NewReplacer(`"example.org:22"`, fmt.Sprintf("%q", s.addr), `&sazhonthil.Config{User: "me"}`, with, `"intranet:80"`, fmt.Sprintf("%q", echoing(t))).Replace(block[1])
	program := "package main\n\nimport (\n\"context\"\n\"fmt\"\n\"os\"\n\n\"sazhonthil\"\n)\n\nfunc run(ctx context.Context) error {\n" + lines +
		"if err != nil {\nreturn err\n}\nreturn conn.Close()\n}\n\nfunc main() {\nif err := run(context.Background()); err != nil {\nfmt.Println(err)\nos.Exit(1)\n}\n}\n"
	here, _ := filepath.Abs(".")
	must(t, os.Mkdir(s.path("try"), 0o755))
	s.write(t, "try/main.go", program)
	s.write(t, "try/go.mod", fmt.Sprintf("module try\n\ngo 1.19\n\nrequire sazhonthil v0.0.0\n\nreplace sazhonthil => %s\n", here))
	command := exec.Command("go", "run", ".")
	command.Dir = s.path("try")
	said, err := command.CombinedOutput()
	if err != nil || !strings.HasPrefix(string(said), "Linux") {
		t.Errorf("%v: %s", err, said)
	}
}
