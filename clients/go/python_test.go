package locks

import (
	"bufio"
	"errors"
	"os"
	"os/exec"
	"path/filepath"
	"testing"
)

// opening is a program in Python that opens client 7 on a state file, says `open` or the error's type, and waits.
const opening = `
import sys
from locks_client import Client, InUse
try:
    client = Client(5, 7, [7001], state=sys.argv[1])
except InUse:
    print("InUse", flush=True)
else:
    print("open", flush=True)
    sys.stdin.read()
    client.close()
`

// python starts it, and returns what ends it.
func python(t *testing.T, path, wanted string) (end func()) {
	t.Helper()
	process := exec.Command("python3", "-c", opening, path)
	process.Env = append(os.Environ(), "PYTHONPATH=../python")
	process.Stderr = os.Stderr
	input, err := process.StdinPipe()
	if err != nil {
		t.Fatal(err)
	}
	output, err := process.StdoutPipe()
	if err != nil {
		t.Fatal(err)
	}
	if err := process.Start(); err != nil {
		t.Skipf("python3 cannot be started: %v", err)
	}
	wantLine(t, bufio.NewReader(output), wanted)
	return func() {
		input.Close()
		process.Wait()
	}
}

func TestAClientInPythonAndThisOneShareNoStateFile(t *testing.T) {
	path := filepath.Join(t.TempDir(), "number")
	if err := os.WriteFile(path, []byte("41\n"), 0o600); err != nil {
		t.Fatal(err)
	}
	config := Config{Cluster: 5, Client: 7, Nodes: Loopback(7001), State: path}
	end := python(t, path, "open")
	if _, err := Open(config); !errors.Is(err, ErrInUse) {
		t.Errorf("got %v", err)
	}
	end()
	client, err := Open(config)
	if err != nil {
		t.Fatal(err)
	}
	python(t, path, "InUse")()
	if err := client.Close(); err != nil {
		t.Error(err)
	}
	python(t, path, "open")()
	if text, err := os.ReadFile(path); string(text) != "41\n" {
		t.Errorf("keeps %q, %v", text, err)
	}
}
