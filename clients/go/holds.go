package locks

import (
	"sync"
	"time"

	"locks/internal/core"
	"locks/internal/wire"
)

// A hold is a lock that this run was granted.
type hold struct {
	name  string
	fence uint64
	once  sync.Once
	ended chan struct{} // closed when the lock was given back, or was lost
	err   error         // *NotHeld if it was lost; set before ended is closed
}

func newHold(name string, fence uint64) *hold {
	return &hold{name: name, fence: fence, ended: make(chan struct{})}
}

// end ends the hold, the first time that it is called.
func (h *hold) end(err error) {
	h.once.Do(func() {
		h.err = err
		close(h.ended)
	})
}

// isEnded reports whether the lock was given back, or lost.
func (h *hold) isEnded() bool {
	select {
	case <-h.ended:
		return true
	default:
		return false
	}
}

// An ending is a release of a lock.
type ending struct {
	fence uint64
	at    time.Time
}

// note remembers what an outcome says of the locks that this run holds.
func (c *Client) note(op wire.Op, outcome *core.Outcome) {
	c.lock.Lock()
	defer c.lock.Unlock()
	c.leader, _ = c.machine.Leader()
	isUnknown := outcome.IsPassed() || outcome.IsOther()
	switch {
	case outcome.IsFirst:
	case op.IsGranting() && isUnknown:
		c.maybe[op.Name] = true
	case isUnknown:
	case op.IsGranting():
		c.noteGrant(op.Name, outcome.Answer)
	case op.Word == wire.Release:
		c.noteRelease(op, outcome.Answer)
	case op.Word == wire.Ask:
		c.noteState(op.Name, outcome.Answer)
	case op.Word == wire.Check && outcome.Answer.Text == wire.Stale:
		c.noteEnd(op.Name, op.Fence, &NotHeld{op.Name, op.Fence})
	case op.Word == wire.Break && outcome.Answer.Text == wire.Broken:
		c.noteEnd(op.Name, op.Fence, &NotHeld{op.Name, op.Fence})
	}
}

func (c *Client) noteGrant(name string, answer wire.Answer) {
	if answer.Text == wire.Granted || answer.Text == wire.Shared {
		c.holds[name] = newHold(name, answer.Fence)
		delete(c.maybe, name)
	}
}

// noteState notes that the client does not hold a name that is free, or that another client holds alone.
func (c *Client) noteState(name string, answer wire.Answer) {
	if answer.Text == wire.Free || answer.Text == wire.Held && answer.Holder != c.id {
		delete(c.maybe, name)
	}
}

func (c *Client) noteRelease(op wire.Op, answer wire.Answer) {
	c.ended[op.Name] = ending{op.Fence, time.Now()}
	if answer.Text == wire.NotHeld {
		c.noteEnd(op.Name, op.Fence, &NotHeld{op.Name, op.Fence})
		return
	}
	delete(c.maybe, op.Name)
	c.noteEnd(op.Name, op.Fence, nil)
}

// noteEnd ends the hold of a name at a fence, if this run has it.
func (c *Client) noteEnd(name string, fence uint64, err error) {
	if it := c.holds[name]; it != nil && it.fence == fence {
		delete(c.holds, name)
		it.end(err)
	}
}

// setMaybe remembers that the client may hold a name.
func (c *Client) setMaybe(name string) {
	c.lock.Lock()
	defer c.lock.Unlock()
	c.maybe[name] = true
}

// held returns the hold of a name, or nil.
func (c *Client) held(name string) *hold {
	c.lock.Lock()
	defer c.lock.Unlock()
	return c.holds[name]
}

func (c *Client) isHeld(name string, fence uint64) bool {
	it := c.held(name)
	return it != nil && it.fence == fence
}

// forget leaves a hold to an earlier run.
func (c *Client) forget(name string) {
	c.lock.Lock()
	defer c.lock.Unlock()
	delete(c.holds, name)
}

// hasEnded reports whether this run gave the name back at that fence, so that no earlier run shares it any more.
func (c *Client) hasEnded(name string, fence uint64) bool {
	c.lock.Lock()
	defer c.lock.Unlock()
	return c.ended[name].fence == fence
}
