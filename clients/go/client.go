package locks

import (
	"context"
	"fmt"
	"math/rand"
	"net/netip"
	"sort"
	"sync"
	"time"

	"locks/internal/core"
	"locks/internal/numbers"
	"locks/internal/wire"
)

const (
	// defaultPatience bounds each call but Lock and LockShared.
	defaultPatience = 10 * time.Second
	// defaultGrace is how long a lock is given back after its context has ended.
	defaultGrace = 2 * time.Second
	// warnAfter is how often a call that no node answers is told of.
	warnAfter = 5 * time.Second
)

// Keys are the key of one client, or two while it changes: the first seals, each of them opens.
type Keys = wire.Keys

// ParseKeys reads the text of a key file, which `locks client-key` prints: one line of 64 hex digits, or two.
func ParseKeys(text string) (Keys, error) { return wire.ParseKeys(text) }

// ReadKeys reads a key file. Only its owner may have access to it.
func ReadKeys(path string) (Keys, error) { return wire.ReadKeys(path) }

// Milliseconds returns the milliseconds since 1970, a first number for a client that does not know its last one. They
// are above all that the client used, if it always began so, no clock was set back, and it asks less than a thousand
// times a second.
func Milliseconds() uint64 { return numbers.Milliseconds() }

// Config says which client asks which nodes, and how.
type Config struct {
	// Cluster is the number of the cluster.
	Cluster uint64
	// Client is the number of this client, 1 to 256, which nobody else uses.
	Client uint16
	// Nodes are asked, one after the other; one that is up suffices. All are of one address family. See Loopback.
	Nodes []netip.AddrPort
	// Hosts say where nodes live that other nodes name. One that is not there is asked at the address of the node that
	// names it. See ReadHosts.
	Hosts map[uint32]netip.Addr
	// Keys seal what is asked, and open what is answered. Without keys an answer is taken from an address that was asked.
	Keys Keys
	// State is the path of a file that keeps the numbers of requests over restarts. `State.lock` beside it is locked
	// while a client uses it, and is never to be removed. A new file needs First too.
	State string
	// First is the least number of the first request, 1 to 2^48 - 2^32. It must be above all that this client used, as
	// Milliseconds() is. It can be 0 if there is a state file.
	First uint64
	// Patience bounds each call but Lock and LockShared, beside its context. 0 stands for 10 seconds.
	Patience time.Duration
	// Grace is how long a release or the withdrawal of a lock is tried after its context has ended. 0 stands for 2
	// seconds.
	Grace time.Duration
	// NoNotices makes Lock, LockShared and LockAll ask at intervals for a lock that is held. Without it the client sends
	// watches meanwhile: nodes say when the lock is free, and the client goes behind others that wait if it released the
	// lock within the last second. Older nodes drop watches, and count each one as an unread datagram.
	NoNotices bool
	// Log is called for each event, possibly by several goroutines at a time. It may call the client: no request is held
	// up meanwhile.
	Log func(Event)
}

// A Client asks for locks under one client number. Several goroutines may use it: their requests follow one another.
type Client struct {
	cluster  uint64
	id       uint16
	patience time.Duration
	grace    time.Duration
	polls    bool // sends no watches
	log      func(Event)
	hosts    map[uint32]netip.Addr

	closing chan struct{}
	once    sync.Once

	// turn holds a token while a goroutine uses what follows.
	turn    chan struct{}
	machine *core.Machine
	numbers *numbers.Numbers
	socket  *socket
	leads   chan netip.AddrPort // a node that leads, as a notice says
	before  wire.Answer         // who held the name before the open Share was sent
	events  []Event             // are told once the turn has ended

	lock  sync.Mutex // of what follows; the socket changes in a turn and under this lock
	holds map[string]*hold
	ended map[string]ending // where this run gave a name back last
	maybe map[string]bool   // names that the client may hold: no answer told whether it does

	seals     wire.Seals
	nodes     []netip.AddrPort
	leader    netip.AddrPort      // from which the last answer came
	waits     map[string]*waiting // by name, those that send watches
	watch     uint64              // the number of the last watch
	isUnheard bool                // no notice came to a watch before a request: nodes may be too old to know watches
}

// Open returns a client. Its first call sends one Ask before its own request. If the answer belongs to an earlier
// request, the state file was restored: the call returns *OtherAnswer, and nothing is believed.
func Open(config Config) (*Client, error) {
	if config.Client < 1 || config.Client > wire.MaxClient {
		return nil, &Invalid{What: "client", Value: fmt.Sprint(config.Client), Range: "1 to 256"}
	}
	nodes, err := checkedNodes(config.Nodes, config.Hosts)
	if err != nil {
		return nil, err
	}
	numbers, err := numbers.Open(config.State, config.First)
	if err != nil {
		return nil, err
	}
	seals := wire.Seals{Cluster: config.Cluster, Client: config.Client, Keys: config.Keys}
	random := rand.New(rand.NewSource(time.Now().UnixNano())).Float64
	client := &Client{
		cluster:  config.Cluster,
		id:       config.Client,
		patience: orElse(config.Patience, defaultPatience),
		grace:    orElse(config.Grace, defaultGrace),
		polls:    config.NoNotices,
		log:      config.Log,
		hosts:    config.Hosts,
		closing:  make(chan struct{}),
		turn:     make(chan struct{}, 1),
		machine:  core.New(seals, nodes, config.Hosts, numbers, random),
		numbers:  numbers,
		leads:    make(chan netip.AddrPort, 1),
		holds:    map[string]*hold{},
		ended:    map[string]ending{},
		maybe:    map[string]bool{},
		seals:    seals,
		nodes:    nodes,
		waits:    map[string]*waiting{},
		watch:    numbersOfWatches(),
	}
	client.socket, err = listen(nodes, client.hear)
	if err != nil {
		numbers.Close()
		return nil, err
	}
	return client, nil
}

// numbersOfWatches returns a number above those of the watches of earlier runs, unless a clock was set back. A node
// that knows a greater one ignores the watches of this run until the old one expires, for two seconds.
func numbersOfWatches() uint64 {
	return numbers.Milliseconds() * 1_000_000
}

func orElse(given, usual time.Duration) time.Duration {
	if given > 0 {
		return given
	}
	return usual
}

// ID returns the number of this client.
func (c *Client) ID() uint16 { return c.id }

// Close ends the client, and each call that is under way. It returns *StillHeld if locks stay held.
func (c *Client) Close() error {
	err, kept := ErrClosed, error(nil)
	c.once.Do(func() { err, kept = c.close() })
	if kept != nil {
		c.tell(Event{Kind: EventNotKept, Err: kept})
	}
	return err
}

// close returns *StillHeld if locks stay held, and why the state file did not take numbers back, if it did not.
func (c *Client) close() (held, kept error) {
	close(c.closing)
	c.turn <- struct{}{} // stays taken: no call follows
	c.endWaits()
	c.socket.close()
	kept = c.numbers.Close()
	if op, isOpen, isSent := c.machine.Open(); isOpen && isSent && op.IsGranting() {
		c.setMaybe(op.Name)
	}
	if holds := c.Holds(); len(holds) > 0 {
		held = &StillHeld{Client: c.id, Holds: holds}
	}
	return held, kept
}

// Holds returns the locks that this run was granted and has not given back, as far as it knows, by name. One of fence 0
// may be held: no answer told whether it was granted.
func (c *Client) Holds() []Hold {
	c.lock.Lock()
	defer c.lock.Unlock()
	var holds []Hold
	for name, it := range c.holds {
		holds = append(holds, Hold{name, it.fence})
	}
	for name := range c.maybe {
		if c.holds[name] == nil {
			holds = append(holds, Hold{Name: name})
		}
	}
	sort.Slice(holds, func(one, other int) bool { return holds[one].Name < holds[other].Name })
	return holds
}

// SkipTo makes the next request have this number, or a greater one that is due: the way out after *Passed. Give a
// number above all that the client ever used.
func (c *Client) SkipTo(ctx context.Context, number uint64) error {
	return c.change(ctx, func() error {
		c.machine.SetFresh()
		return c.numbers.SkipTo(number)
	})
}

// SetNodes changes the nodes that are asked, after a join or a leave.
func (c *Client) SetNodes(ctx context.Context, nodes ...netip.AddrPort) error {
	checked, err := checkedNodes(nodes, c.hosts)
	if err != nil {
		return err
	}
	return c.change(ctx, func() error {
		socket, err := listen(checked, c.hear)
		if err != nil {
			return err
		}
		c.machine.SetNodes(checked)
		c.lock.Lock()
		defer c.lock.Unlock()
		c.socket.close()
		c.socket, c.nodes, c.leader = socket, checked, netip.AddrPort{}
		for _, it := range c.waits {
			it.waiter.SetNodes(checked)
		}
		return nil
	})
}

// SetKeys changes the keys, while the master of the nodes changes.
func (c *Client) SetKeys(ctx context.Context, keys Keys) error {
	return c.change(ctx, func() error {
		c.machine.SetKeys(keys)
		c.lock.Lock()
		defer c.lock.Unlock()
		c.seals.Keys = keys
		for _, it := range c.waits {
			it.waiter.SetKeys(keys)
		}
		return nil
	})
}

// change does something between two requests.
func (c *Client) change(ctx context.Context, what func() error) error {
	if err := c.enter(ctx); err != nil {
		return err
	}
	defer c.leave()
	return what()
}

func (c *Client) isClosing() bool {
	select {
	case <-c.closing:
		return true
	default:
		return false
	}
}

// enter waits until no other goroutine sends a request.
func (c *Client) enter(ctx context.Context) error {
	if c.isClosing() {
		return ErrClosed
	}
	if err := ctx.Err(); err != nil {
		return err
	}
	select {
	case c.turn <- struct{}{}:
		return nil
	case <-ctx.Done():
		return ctx.Err()
	case <-c.closing:
		return ErrClosed
	}
}

// leave lets another goroutine send a request. Then it tells what happened: Log may wait for a turn of its own.
func (c *Client) leave() {
	events := c.events
	c.events = nil
	<-c.turn
	for _, event := range events {
		c.tell(event)
	}
}

// tellLater tells an event once the turn has ended.
func (c *Client) tellLater(event Event) {
	c.events = append(c.events, event)
}

func (c *Client) tell(event Event) {
	if c.log != nil {
		c.log(event)
	}
}
