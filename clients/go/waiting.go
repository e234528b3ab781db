package locks

import (
	"context"
	"math/rand"
	"net/netip"
	"sync"
	"time"

	"locks/internal/core"
	"locks/internal/wire"
)

// lately is how long after a release a client lets others have the lock first.
const lately = time.Second

// A waiting is a goroutine that waits for a lock. The lock of its client guards the waiter.
type waiting struct {
	client *Client
	name   string
	waiter *core.Waiter
	woken  chan struct{} // a notice came
	ended  chan struct{} // the wait has ended
	once   sync.Once     // begins to renew the watch
}

// waitFor begins to wait for the lock that op asks for, and decides whether that wait sends watches. Of several
// goroutines of a client that wait for one name, the first alone does, since a node keeps one for each client and name;
// with NoNotices none does. A wait that sends none asks at intervals.
func (c *Client) waitFor(op wire.Op) *waiting {
	c.lock.Lock()
	defer c.lock.Unlock()
	made := &waiting{client: c, name: op.Name, woken: make(chan struct{}, 1), ended: make(chan struct{})}
	made.waiter = core.NewWaiter(c.seals, op, c.nextWatch, rand.Float64)
	if !c.polls && c.waits[op.Name] == nil {
		c.waits[op.Name] = made
		made.waiter.SetNodes(c.known())
	}
	return made
}

// nextWatch returns the number of the next watch. It is greater than all that an earlier run took, as far as clocks go.
func (c *Client) nextWatch() uint64 {
	c.watch++
	return c.watch
}

// known returns the nodes, and the address from which the last answer came.
func (c *Client) known() []netip.AddrPort {
	nodes := append([]netip.AddrPort(nil), c.nodes...)
	for _, node := range nodes {
		if node == c.leader {
			return nodes
		}
	}
	if c.leader.IsValid() {
		nodes = append(nodes, c.leader)
	}
	return nodes
}

// hear takes a datagram that came. It reports whether that is a notice, which no request waits for.
func (c *Client) hear(came core.Datagram) bool {
	name, isOne := wire.NoticeName(came.Payload)
	if !isOne {
		return false
	}
	c.lock.Lock()
	defer c.lock.Unlock()
	it := c.waits[name]
	if it == nil {
		return true
	}
	isTo, leads := it.waiter.Hear(came, time.Now())
	if isTo {
		c.isUnheard = false
		select {
		case it.woken <- struct{}{}:
		default:
		}
	}
	if leads {
		select {
		case c.leads <- came.Address: // an open request goes there too
		default:
		}
	}
	return true
}

// yield lets others have a lock that this client released a moment ago, since they may have waited for longer. Where
// the nodes know no watches it costs one wait of 50 ms, and after that none. A wait that sends no watches skips it.
func (w *waiting) yield(ctx context.Context) error {
	c := w.client
	c.lock.Lock()
	ended, isEnded := c.ended[w.name]
	yields := isEnded && time.Since(ended.at) < lately && c.waits[w.name] == w && !c.isUnheard
	if yields {
		c.isUnheard = true // until a notice comes
		c.socket.send(w.waiter.Watch(time.Now(), ended.fence))
		w.once.Do(func() { go w.renew() })
	}
	c.lock.Unlock()
	if !yields {
		return nil
	}
	return w.sleep(ctx)
}

// busy goes on with the wait after a request was answered Busy. It returns after how long it asks again, if nodes go on
// as they do.
func (w *waiting) busy(fence uint64) time.Duration {
	c := w.client
	c.lock.Lock()
	defer c.lock.Unlock()
	if c.waits[w.name] == w {
		w.waiter.SetNodes(c.known())
		w.once.Do(func() { go w.renew() })
	}
	now := time.Now()
	c.socket.send(w.waiter.Busy(now, fence))
	return w.waiter.Pause(now)
}

// renew renews the watch until the wait ends, also while a request has no answer.
func (w *waiting) renew() {
	for {
		timer := time.NewTimer(time.Until(w.tick()))
		select {
		case <-timer.C:
		case <-w.ended:
			timer.Stop()
			return
		}
	}
}

// tick renews the watch if that is due, and returns when it is the next time.
func (w *waiting) tick() time.Time {
	c := w.client
	c.lock.Lock()
	defer c.lock.Unlock()
	c.socket.send(w.waiter.Tick(time.Now()))
	due, isOne := w.waiter.RenewsAt()
	if !isOne {
		return time.Now().Add(time.Second) // it was withdrawn, and is about to end
	}
	return due
}

// sleep returns when the lock is to be asked for again, when the context ends, or when the client is closed.
func (w *waiting) sleep(ctx context.Context) error {
	for {
		at, isNow := w.asksAt()
		if isNow {
			return nil
		}
		timer := time.NewTimer(time.Until(at))
		select {
		case <-timer.C:
		case <-w.woken:
		case <-ctx.Done():
		case <-w.client.closing:
		}
		timer.Stop()
		if err := ctx.Err(); err != nil {
			return err
		}
		if w.client.isClosing() {
			return ErrClosed
		}
	}
}

// asksAt returns when the lock is to be asked for again, and whether that is now.
func (w *waiting) asksAt() (at time.Time, isNow bool) {
	w.client.lock.Lock()
	defer w.client.lock.Unlock()
	return w.waiter.AsksAt(), w.waiter.Ask(time.Now())
}

// end ends the wait. A client that was granted the lock needs no withdrawal: the nodes execute the grant.
func (w *waiting) end(isGranted bool) {
	close(w.ended)
	c := w.client
	c.lock.Lock()
	defer c.lock.Unlock()
	if c.waits[w.name] == w {
		delete(c.waits, w.name)
	}
	if !isGranted {
		c.socket.send(w.waiter.Withdraw())
	}
}

// endWaits ends the waits of a client that is being closed.
func (c *Client) endWaits() {
	c.lock.Lock()
	defer c.lock.Unlock()
	for _, it := range c.waits {
		c.socket.send(it.waiter.Withdraw())
	}
	c.waits = map[string]*waiting{}
}
