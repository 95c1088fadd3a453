package core

import (
	"bytes"
	"encoding/base64"
	"encoding/hex"
	"os"
	"strconv"
	"strings"
	"testing"
)

func field(word string) []byte {
	got, _ := hex.DecodeString(strings.Trim(word, "-"))
	return got
}

// The worked runs, as tests/rows.py prints them to the file that ROWS names.
func TestRows(t *testing.T) {
	if os.Getenv("ROWS") == "" {
		t.Skip("no rows: bindings/build.sh names them in the variable ROWS")
	}
	text, err := os.ReadFile(os.Getenv("ROWS"))
	if err != nil {
		t.Fatal(err)
	}
	lines := strings.Split(strings.TrimSpace(string(text)), "\n")
	for _, line := range lines {
		words := strings.Split(line, " ")
		session, err := NewSession("localhost", 13265, string(field(words[1])))
		if err != nil {
			t.Fatal(err)
		}
		records, status, detail := session.Take(field(words[2]))
		if strconv.Itoa(int(status)) != words[3] || strconv.FormatUint(detail, 10) != words[4] {
			t.Errorf("%s: %d %d", words[0], status, detail)
		}
		if len(records) != len(words)-5 {
			t.Fatalf("%s: %d records", words[0], len(records))
		}
		for i, record := range records {
			if hex.EncodeToString(record) != words[5+i] {
				t.Errorf("%s: record %d is %x", words[0], i, record)
			}
		}
		session.Close()
	}
	t.Logf("go: %d rows", len(lines))
}

func TestAgentAndHosts(t *testing.T) {
	agent, err := NewAgent(false)
	if err != nil {
		t.Fatal(err)
	}
	defer agent.Close()
	if err := agent.Forget(7); err != nil {
		t.Error(err)
	}
	if question, err := agent.Asks(0, 1, 0, []byte{11}); question != nil || err != nil {
		t.Error(question, err)
	}
	status, answer, _ := agent.Take(0, 1, 0, []byte{11}, 0, nil)
	if status != OK || !bytes.Equal(answer, []byte{0, 0, 0, 5, 12, 0, 0, 0, 0}) {
		t.Error(status, answer)
	}
	if status, _ := CheckHost("localhost", 22, "", nil); status != 5 {
		t.Error(status)
	}
}

func TestKnownHostsOpenSSH(t *testing.T) {
	const blob = "AAAAC3NzaC1lZDI1NTE5AAAAIJdD7y3aLq454yWBdwLWbieU1ebz9/cu7/QEXn9OIeZJ"
	key, _ := base64.StdEncoding.DecodeString(blob)
	for text, wanted := range map[string]struct {
		status Status
		line   uint64
	}{
		"*.EXAMPLE\tssh-ed25519  " + blob:                 {OK, 0},
		"*.example,!box.example ssh-ed25519 " + blob:      {Unknown, 0},
		"# \xff\n@revoked  *.example ssh-ed25519 " + blob: {42, 2},
	} {
		if status, line := CheckKnownHostsOpenSSH("box.example", 22, []byte(text), key); status != wanted.status || line != wanted.line {
			t.Errorf("%q: %v %d", text, status, line)
		}
	}
}

// Closed twice, used after the end, used by two goroutines, and an event that is too long.
func TestMisuse(t *testing.T) {
	session, err := NewSession("localhost", 13265, "")
	if err != nil {
		t.Fatal(err)
	}
	if _, status, _ := session.Event(0, 0x21, make([]byte, 300000)); status != BadInput {
		t.Error(status)
	}
	done := make(chan Status)
	for i := 0; i < 2; i++ {
		go func() {
			worst := OK
			for n := 0; n < 2000; n++ {
				if _, status, _ := session.Event(0, 0x08, nil); status != OK {
					worst = status
				}
			}
			done <- worst
		}()
	}
	if one, two := <-done, <-done; one != OK || two != OK {
		t.Error(one, two)
	}
	agent, _ := NewAgent(false)
	for i := 0; i < 3; i++ {
		session.Close()
		agent.Close()
	}
	if _, status, _ := session.Event(0, 1, nil); status != Misuse {
		t.Error(status)
	}
	if status, _, _ := agent.Take(0, 1, 0, []byte{11}, 0, nil); status != Misuse || agent.Forget(1) != Misuse {
		t.Error(status)
	}
	if KeyChanged.Error() == "" || KeyChanged.Error() == Status(99).Error() {
		t.Error(KeyChanged)
	}
}
