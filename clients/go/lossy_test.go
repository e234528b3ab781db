package locks

import (
	"encoding/binary"
	"math/rand"
	"net"
	"net/netip"
	"sync"
	"testing"
	"time"
)

// A lossy stands between clients and one node: it loses requests and replies, and doubles and delays replies.
type lossy struct {
	front *net.UDPConn // to clients
	node  netip.AddrPort
	ports map[uint16]uint16 // of each node, and of what stands before it
}

const (
	lost    = 0.15 // of the datagrams of each direction
	doubled = 0.5  // of the replies
	latest  = 80 * time.Millisecond
)

// lossyPorts starts one before each node, and returns their ports.
func lossyPorts(t *testing.T, nodes *cluster) []uint16 {
	t.Helper()
	ports, all := map[uint16]uint16{}, []uint16(nil)
	for _, port := range nodes.ports {
		front, err := net.ListenUDP("udp4", &net.UDPAddr{IP: net.IPv4(127, 0, 0, 1)})
		if err != nil {
			t.Fatal(err)
		}
		t.Cleanup(func() { front.Close() })
		own := uint16(front.LocalAddr().(*net.UDPAddr).Port)
		ports[port], all = own, append(all, own)
		made := &lossy{front, netip.AddrPortFrom(loopback, port), ports}
		defer func() { go made.serve(t) }() // once all ports are known
	}
	return all
}

// serve passes each client's requests on by a socket of their own.
func (l *lossy) serve(t *testing.T) {
	backs, buffer := map[netip.AddrPort]*net.UDPConn{}, make([]byte, 200)
	for {
		length, from, err := l.front.ReadFromUDPAddrPort(buffer)
		if err != nil {
			for _, back := range backs {
				back.Close()
			}
			return
		}
		if backs[from] == nil {
			back, err := net.DialUDP("udp4", nil, net.UDPAddrFromAddrPort(l.node))
			if err != nil {
				t.Error(err)
				return
			}
			backs[from] = back
			go l.back(back, from)
		}
		if rand.Float64() >= lost {
			backs[from].Write(buffer[:length])
		}
	}
}

// back passes the replies to a client on.
func (l *lossy) back(back *net.UDPConn, to netip.AddrPort) {
	buffer := make([]byte, 200)
	for {
		length, err := back.Read(buffer)
		if err != nil {
			return
		}
		reply := append([]byte(nil), buffer[:length]...)
		if reply[3] == 11 { // an Elsewhere names what stands before the leader
			binary.BigEndian.PutUint16(reply[30:], l.ports[binary.BigEndian.Uint16(reply[30:])])
		}
		for turn := 0; turn < 2; turn++ {
			if turn == 0 && rand.Float64() >= lost || turn == 1 && rand.Float64() < doubled {
				after := time.Duration(rand.Int63n(int64(latest)))
				time.AfterFunc(after, func() { l.front.WriteToUDPAddrPort(reply, to) })
			}
		}
	}
}

// A witness sees who holds a lock at a time, and at which fences.
type witness struct {
	lock    sync.Mutex
	holders int
	last    uint64
	count   int
}

// enter reports whether nobody else holds the lock, and whether the fence is a new one.
func (w *witness) enter(fence uint64) bool {
	w.lock.Lock()
	defer w.lock.Unlock()
	isAlone := w.holders == 0 && fence > w.last
	w.holders, w.last, w.count = w.holders+1, fence, w.count+1
	return isAlone
}

func (w *witness) leave() {
	w.lock.Lock()
	defer w.lock.Unlock()
	w.holders--
}

// holdInTurn lets clients hold the lock `db` so many times each.
func holdInTurn(t *testing.T, seen *witness, times int, clients ...*Client) {
	var waiting sync.WaitGroup
	for _, client := range clients {
		client := client
		waiting.Add(1)
		go func() {
			defer waiting.Done()
			for turn := 0; turn < times; turn++ {
				guard, err := client.Lock(within(t), "db")
				if err != nil {
					t.Error(err)
					return
				}
				if !seen.enter(guard.Fence()) {
					t.Errorf("two hold the lock, or fence %d is an old one", guard.Fence())
				}
				time.Sleep(time.Millisecond)
				seen.leave()
				if err := guard.Release(within(t)); err != nil {
					t.Error(err)
				}
			}
		}()
	}
	waiting.Wait()
}

func TestLostDoubledAndLateDatagramsGrantEachLockOnce(t *testing.T) {
	nodes := startCluster(t)
	ports, seen := lossyPorts(t, nodes), &witness{}
	var clients []*Client
	for number := uint16(1); number <= 3; number++ {
		clients = append(clients, nodes.client(number, func(c *Config) { c.Nodes = Loopback(ports...) }))
	}
	holdInTurn(t, seen, 5, clients...)
	if state, err := nodes.client(9).Ask(within(t), "db"); err != nil || !state.IsFree() || state.Fence != seen.last {
		t.Errorf("got %v, %v, and the last fence was %d", state, err, seen.last)
	}
	if seen.count != 15 || seen.last != 15 {
		t.Errorf("%d holds, the last at fence %d", seen.count, seen.last)
	}
}

func TestTheLeaderIsKilledUnderSeveralClients(t *testing.T) {
	nodes, seen := startCluster(t), &witness{}
	clients := []*Client{nodes.client(1), nodes.client(2), nodes.client(3)}
	mustRelease(t, mustLock(t, clients[0], "db"))
	leader := nodes.leader(clients[0])
	time.AfterFunc(20*time.Millisecond, func() { nodes.processes[leader-1].Process.Kill() })
	holdInTurn(t, seen, 40, clients...)
	if seen.count != 120 || seen.last != 121 {
		t.Errorf("%d holds, the last at fence %d", seen.count, seen.last)
	}
}
