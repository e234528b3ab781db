package locks

import (
	"bufio"
	"context"
	"errors"
	"fmt"
	"io"
	"os"
	"os/exec"
	"strconv"
	"strings"
	"syscall"
	"testing"
	"time"
)

// A test starts its own program again, as client 7, with the ports of the nodes in the variable that names what it
// does: it takes the lock `db`, says its fence, waits for a line, and says what its release returns; or it leads.
const (
	holderMode = "LOCKS_TEST_HOLDER"
	leaderMode = "LOCKS_TEST_LEADER"
)

func TestMain(m *testing.M) {
	for mode, run := range map[string]func(*Client){holderMode: runHolder, leaderMode: runLeader} {
		if ports := os.Getenv(mode); ports != "" {
			run(childClient(ports))
			return
		}
	}
	os.Exit(m.Run())
}

func childClient(ports string) *Client {
	var nodes []uint16
	for _, port := range strings.Split(ports, ",") {
		number, _ := strconv.Atoi(port)
		nodes = append(nodes, uint16(number))
	}
	client, err := Open(Config{Cluster: 5, Client: 7, Nodes: Loopback(nodes...), First: Milliseconds()})
	if err != nil {
		fmt.Println(err)
		os.Exit(1)
	}
	return client
}

func runHolder(client *Client) {
	guard, err := client.Lock(context.Background(), "db")
	if err != nil {
		fmt.Println(err)
		return
	}
	fmt.Println(guard.Fence())
	fmt.Scanln()
	fmt.Println(guard.Release(context.Background()))
}

// start starts that process, and returns its input and what it says.
func (c *cluster) start(mode string) (process *exec.Cmd, input io.Writer, output io.Reader) {
	c.t.Helper()
	process = exec.Command(os.Args[0])
	ports := strings.Trim(strings.Join(strings.Fields(fmt.Sprint(c.ports)), ","), "[]")
	process.Env = append(os.Environ(), mode+"="+ports)
	input, err := process.StdinPipe()
	if err != nil {
		c.t.Fatal(err)
	}
	output, err = process.StdoutPipe()
	if err != nil {
		c.t.Fatal(err)
	}
	if err := process.Start(); err != nil {
		c.t.Fatal(err)
	}
	c.t.Cleanup(func() { process.Process.Kill(); process.Wait() })
	return process, input, output
}

// wantLine reads one line, for which it waits for a minute.
func wantLine(t *testing.T, output *bufio.Reader, wanted string) {
	t.Helper()
	said := make(chan string, 1)
	go func() {
		line, err := output.ReadString('\n')
		if err != nil {
			line += err.Error()
		}
		said <- line
	}()
	select {
	case line := <-said:
		if !strings.HasPrefix(line, wanted) {
			t.Fatalf("said %q, wanted %q", line, wanted)
		}
	case <-time.After(time.Minute):
		t.Fatalf("said nothing, wanted %q", wanted)
	}
}

func TestTheLockOfAKilledProcessStaysHeldUntilItIsAdopted(t *testing.T) {
	nodes := startCluster(t)
	process, _, output := nodes.start(holderMode)
	lines := bufio.NewReader(output)
	wantLine(t, lines, "1\n")
	process.Process.Kill()
	process.Wait()
	ctx := within(t)
	var busy *Busy
	if _, err := nodes.client(8).TryLock(ctx, "db"); !errors.As(err, &busy) || busy.Holder != 7 {
		t.Errorf("got %v", err)
	}
	next := nodes.client(7)
	if _, err := next.Lock(ctx, "db"); !errors.As(err, &busy) || !busy.IsOwn() {
		t.Errorf("got %v", err)
	}
	guard, err := next.Adopt(ctx, "db")
	if err != nil || guard.Fence() != 1 {
		t.Fatalf("got %v", err)
	}
	mustRelease(t, guard)
}

func TestAProcessThatWasStoppedAcrossABreakIsTold(t *testing.T) {
	nodes := startCluster(t)
	process, input, output := nodes.start(holderMode)
	lines := bufio.NewReader(output)
	wantLine(t, lines, "1\n")
	process.Process.Signal(syscall.SIGSTOP)
	other, ctx := nodes.client(8), within(t)
	if _, err := other.Raise(ctx); err != nil {
		t.Fatal(err)
	}
	if isBroken, err := other.Break(ctx, "db", 1); !isBroken || err != nil {
		t.Fatalf("got %v, %v", isBroken, err)
	}
	guard := mustLock(t, other, "db")
	process.Process.Signal(syscall.SIGCONT)
	fmt.Fprintln(input)
	wantLine(t, lines, "db is not held at fence 1")
	if isHeld, err := guard.Check(ctx); !isHeld || err != nil {
		t.Errorf("the second holder: %v, %v", isHeld, err)
	}
}
