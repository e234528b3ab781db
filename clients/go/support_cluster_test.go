package locks

import (
	"fmt"
	"net"
	"os"
	"os/exec"
	"path/filepath"
	"strconv"
	"strings"
	"sync"
	"testing"
	"time"
)

// A cluster is three processes of `locks node`, numbered from 1, whose stores are in a folder of their own.
type cluster struct {
	t         *testing.T
	folder    string
	genesis   string
	options   []string
	ports     []uint16
	processes []*exec.Cmd
	clients   uint64
}

// startCluster starts a cluster of the program that LOCKS_PROGRAM names. The test runs beside others that have one.
func startCluster(t *testing.T, options ...string) *cluster {
	t.Helper()
	if os.Getenv("LOCKS_PROGRAM") == "" {
		t.Skip("LOCKS_PROGRAM does not name the built program")
	}
	t.Parallel()
	made := &cluster{t: t, folder: t.TempDir(), options: options, ports: freePorts(3), genesis: "5,8"}
	for at, port := range made.ports {
		made.genesis += fmt.Sprintf(",%d:%d", at+1, port)
	}
	made.processes = make([]*exec.Cmd, len(made.ports))
	t.Cleanup(made.stop)
	for at := range made.ports {
		made.up(at + 1)
	}
	return made
}

// notGiven are the free ports of this process that no test has yet. Several tests run at a time. All are tried before
// the first node starts: until it runs its program, a process that is being started has a copy of each open socket, so
// that a port would stay bound.
var notGiven struct {
	once  sync.Once
	mutex sync.Mutex
	ports []uint16
}

// tryPorts finds the ports of 127.0.0.1 that nothing is bound to, below those that the system gives to clients.
func tryPorts() {
	first := 10_000 + 600*(os.Getpid()%36)
	for port := first; port < first+600; port++ {
		tried, err := net.ListenUDP("udp4", &net.UDPAddr{IP: net.IPv4(127, 0, 0, 1), Port: port})
		if err == nil {
			tried.Close()
			notGiven.ports = append(notGiven.ports, uint16(port))
		}
	}
}

// freePorts returns ports that no other test gets.
func freePorts(count int) []uint16 {
	notGiven.once.Do(tryPorts)
	notGiven.mutex.Lock()
	defer notGiven.mutex.Unlock()
	rest := len(notGiven.ports) - count
	ports := append([]uint16(nil), notGiven.ports[rest:]...)
	notGiven.ports = notGiven.ports[:rest]
	return ports
}

// up starts a node, on what its folder holds.
func (c *cluster) up(node int) {
	c.t.Helper()
	folder := filepath.Join(c.folder, strconv.Itoa(node))
	if err := os.MkdirAll(folder, 0o700); err != nil {
		c.t.Fatal(err)
	}
	words := []string{"node", "--genesis", c.genesis, "--number", strconv.Itoa(node),
		"--port", strconv.Itoa(int(c.ports[node-1])), "--dir", folder}
	process := exec.Command(os.Getenv("LOCKS_PROGRAM"), append(words, c.options...)...)
	if err := process.Start(); err != nil {
		c.t.Fatal(err)
	}
	c.processes[node-1] = process
}

// down kills a node: it has no time to do anything more.
func (c *cluster) down(node int) {
	if process := c.processes[node-1]; process != nil {
		process.Process.Kill()
		process.Wait()
		c.processes[node-1] = nil
	}
}

func (c *cluster) stop() {
	for at := range c.processes {
		c.down(at + 1)
	}
}

// client returns a client of that number, which knows each node.
func (c *cluster) client(number uint16, change ...func(*Config)) *Client {
	c.t.Helper()
	c.clients++ // so that the numbers of a client lie above those of all earlier ones, however fast it asks
	first := Milliseconds() + c.clients*far
	config := Config{Cluster: 5, Client: number, Nodes: Loopback(c.ports...), First: first}
	config.Patience = time.Minute
	for _, it := range change {
		it(&config)
	}
	client, err := Open(config)
	if err != nil {
		c.t.Fatal(err)
	}
	c.t.Cleanup(func() { client.Close() })
	return client
}

// leader returns the node from which a client had its last answer.
func (c *cluster) leader(client *Client) int {
	leader, _ := client.machine.Leader()
	for at, port := range c.ports {
		if port == leader.Port() {
			return at + 1
		}
	}
	c.t.Fatalf("no leader: %v", leader)
	return 0
}

func wantState(t *testing.T, client *Client, name string, wanted State) {
	t.Helper()
	if state, err := client.Ask(within(t), name); err != nil || state != wanted {
		t.Errorf("got %v, %v, wanted %v", state, err, wanted)
	}
}

func mustLock(t *testing.T, client *Client, name string) *Guard {
	t.Helper()
	guard, err := client.Lock(within(t), name)
	if err != nil {
		t.Fatal(err)
	}
	return guard
}

func mustRelease(t *testing.T, guard *Guard) {
	t.Helper()
	if err := guard.Release(within(t)); err != nil {
		t.Fatal(err)
	}
}

// keyFiles writes the files of a cluster with keys, and returns the options of its nodes and the key file of client 7.
func keyFiles(t *testing.T) (options []string, own string) {
	t.Helper()
	if os.Getenv("LOCKS_PROGRAM") == "" {
		t.Skip("LOCKS_PROGRAM does not name the built program")
	}
	folder := t.TempDir()
	write := func(name, text string) string {
		path := filepath.Join(folder, name)
		if err := os.WriteFile(path, []byte(text), 0o600); err != nil {
			t.Fatal(err)
		}
		return path
	}
	shared := write("cluster.key", strings.Repeat("11", 32)+"\n")
	master := write("master.key", strings.Repeat("22", 32)+"\n")
	text, err := exec.Command(os.Getenv("LOCKS_PROGRAM"), "client-key", "--master", master, "--client", "7").Output()
	if err != nil {
		t.Fatal(err)
	}
	return []string{"--key", shared, "--client-key", master}, write("client7.key", string(text))
}
