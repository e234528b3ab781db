package locks

import (
	"context"
	"errors"
	"time"

	"locks/internal/wire"
)

// Lock takes the lock. It waits until the lock is granted or the context ends, also while no node answers. While
// another client holds the lock, nodes that know watches say when it is free; other nodes are asked again and again.
//
// It returns *Busy if the client itself holds the lock, and if the context ends while another client does. If the
// context ends while a request has no answer, Lock withdraws that for the Grace of the Config, and returns *NoAnswer:
// errors.Is(err, ErrMayHold) then reports whether the lock may be held all the same.
func (c *Client) Lock(ctx context.Context, name string) (*Guard, error) {
	return c.wait(ctx, wire.Op{Word: wire.Acquire, Name: name})
}

// LockShared does the same for a shared hold, which up to eight clients have at one fence. The table must be raised.
//
// It returns *EarlierShare if an earlier run of this client shares the name already. The protocol does not say so; the
// number of sharers before and after tells it, which another client that comes or goes meanwhile may change.
func (c *Client) LockShared(ctx context.Context, name string) (*Guard, error) {
	return c.wait(ctx, wire.Op{Word: wire.Share, Name: name})
}

// TryLock asks for the lock once, within the patience. It returns *Busy if the lock is held.
func (c *Client) TryLock(ctx context.Context, name string) (*Guard, error) {
	return c.try(ctx, wire.Op{Word: wire.Acquire, Name: name})
}

// TryLockShared does the same for a shared hold.
func (c *Client) TryLockShared(ctx context.Context, name string) (*Guard, error) {
	return c.try(ctx, wire.Op{Word: wire.Share, Name: name})
}

// Adopt returns a guard for a lock that an earlier run of this client holds, alone or shared. Call it once nothing of
// that run works any more. It returns *NotHeld if the client does not hold the lock, and *Busy if another client holds
// it alone. Where others share the lock it joins them.
func (c *Client) Adopt(ctx context.Context, name string) (*Guard, error) {
	op := wire.Op{Word: wire.Ask, Name: name}
	if err := op.Valid(); err != nil {
		return nil, err
	}
	ctx, cancel := context.WithTimeout(ctx, c.patience)
	defer cancel()
	if err := c.enter(ctx); err != nil {
		return nil, c.unsent(op, err)
	}
	defer c.leave()
	if it := c.held(name); it != nil {
		return nil, &Busy{Name: name, Holder: c.id, Fence: it.fence, Client: c.id, IsOurs: true}
	}
	answer, err := c.perform(ctx, op)
	if err != nil {
		return nil, err
	}
	return c.adopt(ctx, name, answer)
}

// adopt takes a lock over by what an Ask said of it.
func (c *Client) adopt(ctx context.Context, name string, answer wire.Answer) (*Guard, error) {
	switch {
	case answer.Text == wire.HeldShared:
		c.before = wire.Answer{} // so that a withdrawal releases it
		return c.guard(c.granted(ctx, wire.Op{Word: wire.Share, Name: name}))
	case answer.Text == wire.Free:
		return nil, &NotHeld{name, answer.Fence}
	case answer.Holder != c.id:
		return nil, &Busy{Name: name, Holder: answer.Holder, Fence: answer.Fence, Client: c.id}
	}
	it := newHold(name, answer.Fence)
	c.lock.Lock()
	defer c.lock.Unlock()
	c.holds[name] = it
	delete(c.maybe, name)
	return &Guard{c, it}, nil
}

// try asks for a lock once.
func (c *Client) try(ctx context.Context, op wire.Op) (*Guard, error) {
	ctx, cancel := context.WithTimeout(ctx, c.patience)
	defer cancel()
	return c.take(ctx, op)
}

// wait asks for a lock until it is granted, or cannot be.
func (c *Client) wait(ctx context.Context, op wire.Op) (*Guard, error) {
	if err := op.Valid(); err != nil {
		return nil, err
	}
	waiting := c.waitFor(op)
	guard, err := c.waited(ctx, op, waiting)
	waiting.end(err == nil)
	return guard, err
}

func (c *Client) waited(ctx context.Context, op wire.Op, waiting *waiting) (*Guard, error) {
	if err := waiting.yield(ctx); err != nil {
		return nil, c.unsent(op, err)
	}
	for {
		guard, err := c.take(ctx, op)
		var busy *Busy
		if !errors.As(err, &busy) || busy.IsOwn() {
			return guard, err
		}
		after := waiting.busy(busy.Fence)
		c.tell(Event{
			Kind: EventWaiting, Asked: op.String(), Name: op.Name, Fence: busy.Fence, Holder: busy.Holder, Wait: after,
		})
		if busy.Cause = waiting.sleep(ctx); busy.Cause != nil {
			return nil, busy
		}
	}
}

// sleep waits, until the context ends or the client is closed.
func (c *Client) sleep(ctx context.Context, wait time.Duration) error {
	timer := time.NewTimer(wait)
	defer timer.Stop()
	select {
	case <-timer.C:
		return nil
	case <-ctx.Done():
		return ctx.Err()
	case <-c.closing:
		return ErrClosed
	}
}

// take sends one request for a lock. While it runs no other goroutine sends one.
func (c *Client) take(ctx context.Context, op wire.Op) (*Guard, error) {
	if err := op.Valid(); err != nil {
		return nil, err
	}
	if err := c.enter(ctx); err != nil {
		return nil, c.unsent(op, err)
	}
	defer c.leave()
	if err := c.settle(ctx); err != nil {
		return nil, c.behind(op, err)
	}
	// A second share would be answered as the first, and one release would end both.
	if it := c.held(op.Name); it != nil {
		return nil, &Busy{Name: op.Name, Holder: c.id, Fence: it.fence, Client: c.id, IsOurs: true}
	}
	if op.Word == wire.Share {
		return c.share(ctx, op)
	}
	return c.guard(c.granted(ctx, op))
}

// share takes a shared hold, unless an earlier run has it.
func (c *Client) share(ctx context.Context, op wire.Op) (*Guard, error) {
	before, err := c.perform(ctx, wire.Op{Word: wire.Ask, Name: op.Name})
	if err != nil {
		return nil, err
	}
	c.before = before
	it, err := c.granted(ctx, op)
	if err != nil {
		return nil, err
	}
	if err := c.earlier(ctx, op.Name, before, it.fence); err != nil {
		return nil, err
	}
	return &Guard{c, it}, nil
}

// earlier returns *EarlierShare if this client shared the name at that fence before its Share was answered, by who held
// it before. Then this run forgets it.
func (c *Client) earlier(ctx context.Context, name string, before wire.Answer, fence uint64) error {
	if before.Text != wire.HeldShared || before.Fence != fence || c.hasEnded(name, fence) {
		return nil
	}
	after, err := c.perform(ctx, wire.Op{Word: wire.Ask, Name: name})
	if err == nil && (after.Text != wire.HeldShared || after.Fence != fence || after.Holders > before.Holders) {
		return nil
	}
	c.forget(name)
	if err != nil {
		c.setMaybe(name)
	}
	return &EarlierShare{Name: name, Fence: fence, Client: c.id, Cause: err}
}

// granted sends a request for a lock, and withdraws it if it has no answer.
func (c *Client) granted(ctx context.Context, op wire.Op) (*hold, error) {
	_, err := c.perform(ctx, op)
	if err == nil {
		return c.held(op.Name), nil
	}
	var unanswered *NoAnswer
	if errors.As(err, &unanswered) && unanswered.mayHold() {
		unanswered.IsWithdrawn = c.withdraw()
	}
	return nil, err
}

// withdraw settles a request for a lock that its caller does not wait for any more. It reports whether the lock is
// known not to be held by it.
func (c *Client) withdraw() bool {
	ctx, cancel := context.WithTimeout(context.Background(), c.grace)
	defer cancel()
	op, _, _ := c.machine.Open()
	if c.settle(ctx) != nil {
		return false
	}
	c.lock.Lock()
	defer c.lock.Unlock()
	return c.holds[op.Name] == nil && !c.maybe[op.Name]
}

// guard makes a guard of a hold.
func (c *Client) guard(it *hold, err error) (*Guard, error) {
	if err != nil {
		return nil, err
	}
	return &Guard{c, it}, nil
}
