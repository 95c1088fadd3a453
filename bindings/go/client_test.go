package sazhonthil

import (
	"bytes"
	"context"
	"crypto/rand"
	"errors"
	"fmt"
	"io"
	"net"
	"os"
	"os/exec"
	"os/user"
	"path/filepath"
	"runtime"
	"strings"
	"sync"
	"syscall"
	"testing"
	"time"
)

// ---- servers on the loopback: Debian's sshd and dropbear as the user of this process, and asyncssh

const password = "a password of the tests'"

const config = `Port %d
ListenAddress 127.0.0.1
HostKey %[2]s/host
PidFile none
AuthorizedKeysFile %[2]s/authorized_keys
StrictModes no
UsePAM no
PermitRootLogin yes
PasswordAuthentication no
KbdInteractiveAuthentication no
SetEnv HOME=%[2]s/home
MaxStartups 200
MaxSessions 200
`

type server struct {
	name, folder, user, addr, known, hostKey string
	process                                  *exec.Cmd
}

func must(t testing.TB, err error) {
	t.Helper()
	if err != nil {
		t.Fatal(err)
	}
}

func freePort(t testing.TB) int {
	listener, err := net.Listen("tcp", "127.0.0.1:0")
	must(t, err)
	defer listener.Close()
	return listener.Addr().(*net.TCPAddr).Port
}

func canConnect(addr string) bool {
	line, err := net.DialTimeout("tcp", addr, 2*time.Second)
	if err == nil {
		line.Close()
	}
	return err == nil
}

func until(t testing.TB, what string, done func() bool) {
	t.Helper()
	for end := time.Now().Add(20 * time.Second); time.Now().Before(end); time.Sleep(20 * time.Millisecond) {
		if done() {
			return
		}
	}
	t.Fatal("not within 20 s:", what)
}

func start(t *testing.T, name string) *server {
	folder, err := os.MkdirTemp("", "sazhonthil-go-")
	must(t, err)
	me, err := user.Current()
	must(t, err)
	s := &server{name: name, folder: folder, user: me.Username}
	for _, key := range []string{"host", "user", "other", "sealed"} {
		phrase := map[string]string{"sealed": "open sesame"}[key]
		must(t, exec.Command("ssh-keygen", "-q", "-t", "ed25519", "-N", phrase, "-C", "", "-f", s.path(key)).Run())
	}
	must(t, os.MkdirAll(s.path("home/.ssh"), 0o700))
	keys := s.read(t, "user.pub") + s.read(t, "sealed.pub")
	s.write(t, "authorized_keys", keys)
	s.write(t, "home/.ssh/authorized_keys", keys)
	os.Chmod(s.path("home/.ssh/authorized_keys"), 0o600)
	port := freePort(t)
	words := s.words(t, port)
	log, err := os.Create(s.path("log"))
	must(t, err)
	s.process = exec.Command(words[0], words[1:]...)
	s.process.Stdout, s.process.Stderr, s.process.SysProcAttr = log, log, &syscall.SysProcAttr{Setpgid: true}
	must(t, s.process.Start())
	t.Cleanup(func() {
		syscall.Kill(-s.process.Process.Pid, syscall.SIGTERM)
		s.process.Wait()
		os.RemoveAll(folder)
	})
	s.addr = fmt.Sprintf("localhost:%d", port)
	until(t, "the server starts", func() bool { return canConnect(fmt.Sprintf("127.0.0.1:%d", port)) })
	s.hostKey = strings.Join(strings.Fields(s.read(t, "host.pub"))[:2], " ")
	s.known = s.write(t, "known", fmt.Sprintf("[localhost]:%d %s\n", port, s.hostKey))
	return s
}

func (s *server) words(t *testing.T, port int) []string {
	switch s.name {
	case "sshd":
		if _, err := os.Stat("/usr/sbin/sshd"); err != nil {
			t.Skip("no /usr/sbin/sshd (Debian: openssh-server)")
		}
		if os.Geteuid() == 0 {
			os.MkdirAll("/run/sshd", 0o755)
		}
		return []string{"/usr/sbin/sshd", "-D", "-e", "-f", s.write(t, "config", fmt.Sprintf(config, port, s.folder))}
	case "dropbear":
		if _, err := os.Stat("/usr/sbin/dropbear"); err != nil || os.Geteuid() != 0 {
			t.Skip("no dropbear (Debian: dropbear-bin), or no root to give it a home of its own")
		}
		must(t, exec.Command("dropbearkey", "-t", "ed25519", "-f", s.path("dropbear")).Run())
		told, err := exec.Command("dropbearkey", "-y", "-f", s.path("dropbear")).Output()
		must(t, err)
		for _, line := range strings.Split(string(told), "\n") {
			if strings.HasPrefix(line, "ssh-") {
				s.write(t, "host.pub", line)
			}
		}
		me, _ := os.UserHomeDir()
		return []string{"unshare", "-m", "sh", "-c", fmt.Sprintf("mount --bind %s %s && exec /usr/sbin/dropbear -F -E -p 127.0.0.1:%d -r %s", s.path("home"), me, port, s.path("dropbear"))}
	default:
		if exec.Command("/usr/bin/python3", "-c", "import asyncssh").Run() != nil {
			t.Skip("no asyncssh (Debian: python3-asyncssh)")
		}
		must(t, os.Rename(s.path("host"), s.path("host_ed25519")))
		script, _ := filepath.Abs("../python/tests/asyncssh_server.py")
		return []string{"/usr/bin/python3", script, fmt.Sprint(port), s.folder, s.user, password}
	}
}

func (s *server) path(name string) string { return filepath.Join(s.folder, name) }

func (s *server) read(t testing.TB, name string) string {
	data, err := os.ReadFile(s.path(name))
	must(t, err)
	return string(data)
}

func (s *server) write(t testing.TB, name, text string) string {
	must(t, os.WriteFile(s.path(name), []byte(text), 0o644))
	return s.path(name)
}

func (s *server) config() *Config {
	return &Config{User: s.user, KeyFiles: []string{s.path("user")}, KnownHosts: []string{s.known}}
}

func dial(t testing.TB, s *server, change func(*Config)) (*Client, error) {
	t.Helper()
	with := s.config()
	if change != nil {
		change(with)
	}
	ctx, cancel := context.WithTimeout(context.Background(), 30*time.Second)
	defer cancel()
	return Dial(ctx, "tcp", s.addr, with)
}

func dialled(t testing.TB, s *server) *Client {
	t.Helper()
	c, err := dial(t, s, nil)
	must(t, err)
	t.Cleanup(func() { c.Close() })
	return c
}

// killAll kills the server and its connections, which are sessions of their own.
func killAll(s *server) {
	told, _ := exec.Command("ps", "-e", "-o", "pid=,ppid=").Output()
	found := map[int]bool{s.process.Process.Pid: true}
	for round := 0; round < 4; round++ {
		for _, line := range strings.Split(string(told), "\n") {
			var pid, parent int
			if n, _ := fmt.Sscan(line, &pid, &parent); n == 2 && found[parent] {
				found[pid] = true
			}
		}
	}
	for pid := range found {
		syscall.Kill(pid, syscall.SIGKILL)
	}
}

func echoing(t testing.TB) string {
	listener, err := net.Listen("tcp", "127.0.0.1:0")
	must(t, err)
	t.Cleanup(func() { listener.Close() })
	go func() {
		for {
			line, err := listener.Accept()
			if err != nil {
				return
			}
			go func() {
				io.Copy(line, line)
				line.Close()
			}()
		}
	}()
	return listener.Addr().String()
}

func random(size int) []byte {
	data := make([]byte, size)
	rand.Read(data)
	return data
}

func saidBack(t testing.TB, line net.Conn, data []byte) []byte {
	t.Helper()
	go func() {
		line.Write(data)
		line.(interface{ CloseWrite() error }).CloseWrite()
	}()
	got, err := io.ReadAll(line)
	must(t, err)
	line.Close()
	return got
}

// ---- the table

var ctx = context.Background()

var table = []struct {
	name    string
	servers string
	try     func(t *testing.T, s *server)
}{
	{"login by a key file", "sshd dropbear asyncssh", func(t *testing.T, s *server) {
		got, err := dialled(t, s).Run(ctx, "echo well")
		must(t, err)
		if string(got.Stdout) != "well\n" {
			t.Errorf("%q", got.Stdout)
		}
	}},
	{"by a key file with a passphrase, and with a wrong one", "sshd dropbear asyncssh", func(t *testing.T, s *server) {
		for phrase, right := range map[string]bool{"open sesame": true, "open": false} {
			c, err := dial(t, s, func(with *Config) {
				with.KeyFiles = []string{s.path("sealed")}
				with.Passphrase = func(string) (string, error) { return phrase, nil }
			})
			if right != (err == nil) || !right && !errors.Is(err, BadPassphrase) {
				t.Error(phrase, err)
			}
			if c != nil {
				c.Close()
			}
		}
		failed := errors.New("no passphrase today")
		_, err := dial(t, s, func(with *Config) {
			with.KeyFiles = []string{s.path("sealed")}
			with.Passphrase = func(string) (string, error) { return "", failed }
		})
		if err != failed {
			t.Error(err)
		}
	}},
	{"by a password, by answers, and by wrong ones", "asyncssh", func(t *testing.T, s *server) {
		for _, given := range []string{password, "wrong"} {
			given := given
			_, one := dial(t, s, func(with *Config) { with.KeyFiles, with.Password = nil, given })
			_, two := dial(t, s, func(with *Config) {
				with.KeyFiles = nil
				with.Answers = func(_, _ string, prompts []Prompt) ([]string, error) {
					said := make([]string, len(prompts))
					for i := range said {
						said[i] = given
					}
					return said, nil
				}
			})
			for _, err := range []error{one, two} {
				if (given == password) != (err == nil) || err != nil && !errors.Is(err, AuthenticationFailed) {
					t.Error(given, err)
				}
			}
		}
	}},
	{"a key that the server doesn't have, and no key file", "sshd dropbear asyncssh", func(t *testing.T, s *server) {
		_, err := dial(t, s, func(with *Config) { with.KeyFiles = []string{s.path("other")} })
		var told *Error
		if !errors.Is(err, AuthenticationFailed) || !errors.As(err, &told) || !contains(told.Methods, "publickey") {
			t.Error(err)
		}
		if _, err = dial(t, s, func(with *Config) { with.KeyFiles = []string{s.path("nothing")} }); !errors.Is(err, BadKeyFile) {
			t.Error(err)
		}
	}},
	{"host key unknown: refused, accepted once, learned", "sshd dropbear asyncssh", func(t *testing.T, s *server) {
		learned := s.path("learned")
		for accept, wants := range []int{Refuse: 0, Once: 0, Learn: 1} {
			var shown HostKey
			_, err := dial(t, s, func(with *Config) {
				with.KnownHosts = []string{learned}
				with.NewHost = func(key HostKey) (Accept, error) { shown = key; return Accept(accept), nil }
			})
			if (Accept(accept) == Refuse) != errors.Is(err, HostUnknown) || shown.Type != "ssh-ed25519" || !strings.HasPrefix(shown.Fingerprint, "SHA256:") {
				t.Error(accept, err, shown)
			}
			if text, _ := os.ReadFile(learned); bytes.Count(text, []byte("\n")) != wants {
				t.Errorf("%q", text)
			}
		}
		if c, err := dial(t, s, func(with *Config) { with.KnownHosts = []string{learned} }); err != nil {
			t.Error(err)
		} else {
			c.Close()
		}
	}},
	{"host key changed and revoked: file and line", "sshd dropbear asyncssh", func(t *testing.T, s *server) {
		host := strings.Fields(s.read(t, "known"))[0]
		other := strings.Join(strings.Fields(s.read(t, "other.pub"))[:2], " ")
		changed := s.write(t, "changed", fmt.Sprintf("# a comment\n\n%s %s\n", host, other))
		revoked := s.write(t, "revoked", fmt.Sprintf("%s %s\n@revoked %s %s\n", host, s.hostKey, host, s.hostKey))
		for file, wants := range map[string]Error{changed: {Code: HostChanged, Line: 3}, revoked: {Code: HostRevoked, Line: 2}} {
			_, err := dial(t, s, func(with *Config) {
				with.KnownHosts = []string{file}
				with.NewHost = func(HostKey) (Accept, error) { return Learn, nil }
			})
			var told *Error
			if !errors.Is(err, wants.Code) || !errors.As(err, &told) || told.File != file || told.Line != wants.Line {
				t.Error(err)
			}
		}
	}},
	{"a command with 10 MB each way", "sshd dropbear asyncssh", func(t *testing.T, s *server) {
		data := random(10 << 20)
		got, err := dialled(t, s).RunInput(ctx, "cat", bytes.NewReader(data))
		must(t, err)
		if !bytes.Equal(got.Stdout, data) {
			t.Error(len(got.Stdout))
		}
	}},
	{"exit status, signal, the standard error apart", "sshd dropbear", func(t *testing.T, s *server) {
		c := dialled(t, s)
		got, err := c.Run(ctx, "echo one; echo two >&2; exit 7")
		var exit *ExitError
		if !errors.As(err, &exit) || exit.Status != 7 || string(got.Stdout) != "one\n" || string(got.Stderr) != "two\n" {
			t.Error(got, err)
		}
		if _, err = c.Run(ctx, "kill -TERM $$"); !errors.As(err, &exit) || exit.Signal != "TERM" || exit.HasStatus {
			t.Error(err)
		}
	}},
	{"a session: read, written, ended", "sshd dropbear asyncssh", func(t *testing.T, s *server) {
		session, err := dialled(t, s).Start(ctx, "cat")
		must(t, err)
		defer session.Close()
		session.Write([]byte("hello"))
		must(t, session.CloseWrite())
		got, err := io.ReadAll(session)
		must(t, err)
		exit, err := session.Wait(ctx)
		if err != nil || string(got) != "hello" || exit.Status != 0 || !exit.HasStatus {
			t.Error(string(got), exit, err)
		}
	}},
	{"a context that ends: of a command, of a wait, of a dial", "sshd", func(t *testing.T, s *server) {
		c := dialled(t, s)
		short, cancel := context.WithTimeout(ctx, 300*time.Millisecond)
		defer cancel()
		got, err := c.Run(short, "echo begun; sleep 30")
		if !errors.Is(err, context.DeadlineExceeded) || string(got.Stdout) != "begun\n" {
			t.Error(got, err)
		}
		if got, err := c.Run(ctx, "echo well"); err != nil || string(got.Stdout) != "well\n" {
			t.Error(got, err)
		}
		silent, err := net.Listen("tcp", "127.0.0.1:0")
		must(t, err)
		defer silent.Close()
		short, cancel = context.WithTimeout(ctx, 200*time.Millisecond)
		defer cancel()
		if _, err := Dial(short, "tcp", silent.Addr().String(), s.config()); !errors.Is(err, context.DeadlineExceeded) {
			t.Error(err)
		}
		if _, err := Dial(ctx, "tcp", fmt.Sprintf("127.0.0.1:%d", freePort(t)), s.config()); !errors.Is(err, NoConnection) {
			t.Error(err)
		}
		if _, err := Dial(ctx, "tcp", "a,b:22", s.config()); !errors.Is(err, BadName) {
			t.Error(err)
		}
	}},
	{"a local forward: 1 MB there and back; it ends", "sshd dropbear asyncssh", func(t *testing.T, s *server) {
		c, data := dialled(t, s), random(1<<20)
		forward, err := c.ForwardLocal("127.0.0.1:0", echoing(t))
		must(t, err)
		at := fmt.Sprintf("127.0.0.1:%d", forward.Port())
		line, err := net.Dial("tcp", at)
		must(t, err)
		if !bytes.Equal(saidBack(t, line, data), data) {
			t.Error("other bytes")
		}
		for i := 0; i < 3; i++ {
			forward.Close()
		}
		if canConnect(at) || forward.Port() != 0 {
			t.Error("it goes on listening")
		}
	}},
	{"a remote forward likewise", "sshd dropbear asyncssh", func(t *testing.T, s *server) {
		c, data := dialled(t, s), random(1<<20)
		port := freePort(t)
		if s.name == "sshd" {
			port = 0
		}
		forward, err := c.ForwardRemote(ctx, fmt.Sprintf("localhost:%d", port), echoing(t))
		must(t, err)
		at := fmt.Sprintf("127.0.0.1:%d", forward.Port())
		line, err := net.Dial("tcp", at)
		must(t, err)
		if !bytes.Equal(saidBack(t, line, data), data) {
			t.Error("other bytes")
		}
		forward.Close()
		if s.name != "dropbear" { // which goes on listening
			until(t, "the server listens no longer", func() bool { return !canConnect(at) })
		}
	}},
	{"a net.Conn through the server: 1 MB, deadlines, a port that nobody listens at", "sshd dropbear asyncssh", func(t *testing.T, s *server) {
		c, data, target := dialled(t, s), random(1<<20), echoing(t)
		line, err := c.Dial("tcp", target)
		must(t, err)
		line.SetReadDeadline(time.Now().Add(100 * time.Millisecond))
		if _, err := line.Read(make([]byte, 1)); !errors.Is(err, os.ErrDeadlineExceeded) {
			t.Error(err)
		}
		line.SetReadDeadline(time.Time{})
		if !bytes.Equal(saidBack(t, line, data), data) {
			t.Error("other bytes")
		}
		line.Close()
		if _, err := line.Write([]byte("x")); !errors.Is(err, net.ErrClosed) {
			t.Error(err)
		}
		if _, err := c.Dial("tcp", fmt.Sprintf("127.0.0.1:%d", freePort(t))); !errors.Is(err, ChannelRefused) {
			t.Error(err)
		}
	}},
	{"the server is killed", "sshd dropbear asyncssh", func(t *testing.T, s *server) {
		lost := start(t, s.name)
		c := dialled(t, lost)
		session, err := c.Start(ctx, "cat")
		must(t, err)
		time.AfterFunc(200*time.Millisecond, func() { killAll(lost) })
		if _, err := session.Read(make([]byte, 1)); !errors.Is(err, ConnectionLost) {
			t.Error(err)
		}
		if _, err := c.Run(ctx, "echo"); !errors.Is(err, ConnectionLost) {
			t.Error(err)
		}
	}},
	{"a channel that nobody reads: others go on", "sshd dropbear", func(t *testing.T, s *server) {
		c := dialled(t, s)
		paused, err := c.Start(ctx, "head -c 20000000 /dev/zero")
		must(t, err)
		defer paused.Close()
		for n := 0; n < 5; n++ {
			if got, err := c.Run(ctx, "echo well"); err != nil || string(got.Stdout) != "well\n" {
				t.Error(err)
			}
		}
		got, err := io.Copy(io.Discard, paused)
		if err != nil || got != 20000000 {
			t.Error(got, err)
		}
	}},
	{"new keys after each 256 kB, and others at once, with 10 MB each way", "sshd dropbear", func(t *testing.T, s *server) {
		data := random(10 << 20)
		c, err := dial(t, s, func(with *Config) { with.RekeyBytes = 256 << 10 })
		must(t, err)
		defer c.Close()
		stop := make(chan struct{})
		go func() {
			for {
				select {
				case <-stop:
					return
				case <-time.After(50 * time.Millisecond):
					c.Rekey()
				}
			}
		}()
		got, err := c.RunInput(ctx, "cat", bytes.NewReader(data))
		close(stop)
		must(t, err)
		if !bytes.Equal(got.Stdout, data) {
			t.Error(len(got.Stdout))
		}
	}},
	{"eight goroutines on one connection, 20 commands each", "sshd asyncssh", func(t *testing.T, s *server) {
		c := dialled(t, s)
		var all sync.WaitGroup
		for n := 0; n < 8; n++ {
			n := n
			all.Add(1)
			go func() {
				defer all.Done()
				for i := 0; i < 20; i++ {
					said := fmt.Sprintf("%d %d\n", n, i)
					if got, err := c.Run(ctx, "echo "+strings.TrimSpace(said)); err != nil || string(got.Stdout) != said {
						t.Error(err)
						return
					}
				}
			}()
		}
		all.Wait()
	}},
	{"closed twice, used after the end, closed while others wait", "sshd", func(t *testing.T, s *server) {
		c, err := dial(t, s, nil)
		must(t, err)
		session, err := c.Start(ctx, "cat")
		must(t, err)
		waiting := make(chan error, 3)
		for i := 0; i < 3; i++ {
			go func() {
				_, err := session.Read(make([]byte, 1))
				waiting <- err
			}()
		}
		time.Sleep(100 * time.Millisecond)
		for i := 0; i < 3; i++ {
			c.Close()
		}
		for i := 0; i < 3; i++ {
			if err := <-waiting; !errors.Is(err, net.ErrClosed) {
				t.Error(err)
			}
		}
		session.Close()
		session.Close()
		_, one := c.Run(ctx, "echo")
		_, two := c.Dial("tcp", "localhost:1")
		_, three := c.ForwardLocal("localhost:0", "localhost:1")
		_, four := session.Write([]byte("x"))
		_, five := session.Wait(ctx)
		for _, err := range []error{one, two, three, four, five, c.Rekey(), session.Signal("INT"), session.CloseWrite()} {
			if !errors.Is(err, ErrClosed) {
				t.Error(err)
			}
		}
	}},
	{"clients that are dropped are freed, and their goroutines end", "sshd", func(t *testing.T, s *server) {
		before := runtime.NumGoroutine()
		for n := 0; n < 5; n++ {
			c, err := dial(t, s, nil)
			must(t, err)
			for i := 0; i < 10; i++ {
				_, err := c.Start(ctx, "cat")
				must(t, err)
			}
		}
		until(t, "they end", func() bool {
			runtime.GC()
			return runtime.NumGoroutine() <= before
		})
	}},
}

func TestTable(t *testing.T) {
	for _, name := range []string{"sshd", "dropbear", "asyncssh"} {
		t.Run(name, func(t *testing.T) {
			s := start(t, name)
			for _, row := range table {
				if strings.Contains(row.servers, name) {
					t.Run(row.name, func(t *testing.T) { row.try(t, s) })
				}
			}
		})
	}
}
