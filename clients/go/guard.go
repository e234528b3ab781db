package locks

import (
	"context"
	"errors"
	"time"

	"locks/internal/wire"
)

// watchEvery is how often a watched lock is checked.
const watchEvery = time.Second

// A Guard is a lock that a client holds, until Release.
//
// A lock does not expire: it stays held after a panic that is not recovered, os.Exit, a kill or a power cut. Somebody
// may break it, and nobody tells the holder. So pass Fence with each write to what the lock guards, and let that reject
// a smaller fence than it has seen.
type Guard struct {
	client *Client
	hold   *hold
}

// Name returns the name of the lock.
func (g *Guard) Name() string { return g.hold.name }

// Fence returns the fence at which the lock is held.
func (g *Guard) Fence() uint64 { return g.hold.fence }

// Release gives the lock back. It is tried for the Grace of the Config at least, also if the context has ended, so that
// `defer guard.Release(ctx)` does not leave the lock held.
//
// It returns *NotHeld if somebody broke the lock, and *NotReleased if the lock may stay held: then call it again. After
// a release it returns nil.
func (g *Guard) Release(ctx context.Context) error {
	longer, cancel := outlasting(ctx, g.client.grace)
	defer cancel()
	err := g.client.free(longer, g.hold)
	var lost *NotHeld
	if err == nil || errors.As(err, &lost) {
		return err
	}
	var unanswered *NoAnswer
	if errors.As(err, &unanswered) && ctx.Err() != nil {
		unanswered.Cause = ctx.Err()
	}
	err = &NotReleased{g.hold.name, g.hold.fence, err}
	g.client.tell(Event{Kind: EventNotReleased, Name: g.hold.name, Fence: g.hold.fence, Err: err})
	return err
}

// Check reports whether the lock was held at its fence when a node executed this. It may be broken since: it does not
// replace the fence.
func (g *Guard) Check(ctx context.Context) (bool, error) {
	return g.client.Check(ctx, g.hold.name, g.hold.fence)
}

// OnLost calls lost once if the lock is no longer held at its fence although it was not released, by checking it each
// second in a goroutine. That ends with the context, with the release, or with the client. While no node answers, lost
// is not called: nobody knows.
func (g *Guard) OnLost(ctx context.Context, lost func(*NotHeld)) {
	go g.watch(ctx, lost)
}

// Context returns a context that is cancelled when the lock is lost, as OnLost finds it, and when it is released. Call
// the function that comes with it, or the parent's, when it is not needed any more.
func (g *Guard) Context(parent context.Context) (context.Context, context.CancelFunc) {
	ctx, cancel := context.WithCancel(parent)
	go func() {
		g.watch(ctx, func(*NotHeld) {})
		cancel()
	}()
	return ctx, cancel
}

// watch returns when the hold, the context or the client has ended, after it has called lost if the lock was lost.
func (g *Guard) watch(ctx context.Context, lost func(*NotHeld)) {
	ctx, cancel := g.whileHeld(ctx)
	defer cancel()
	for g.client.sleep(ctx, watchEvery) == nil {
		g.Check(ctx) // its answer is noted in the hold
	}
	if g.hold.isEnded() {
		g.tellLost(lost)
	}
}

// whileHeld returns a context that ends with the hold too.
func (g *Guard) whileHeld(parent context.Context) (context.Context, context.CancelFunc) {
	ctx, cancel := context.WithCancel(parent)
	go func() {
		select {
		case <-g.hold.ended:
			cancel()
		case <-ctx.Done():
		}
	}()
	return ctx, cancel
}

func (g *Guard) tellLost(lost func(*NotHeld)) {
	var err *NotHeld
	if errors.As(g.hold.err, &err) {
		g.client.tell(Event{Kind: EventLost, Name: err.Name, Fence: err.Fence, Err: err})
		lost(err)
	}
}

// free gives back a lock that a guard stands for.
func (c *Client) free(ctx context.Context, it *hold) error {
	op := wire.Op{Word: wire.Release, Name: it.name, Fence: it.fence}
	ctx, cancel := context.WithTimeout(ctx, c.patience)
	defer cancel()
	if it.isEnded() {
		return it.err
	}
	if err := c.enter(ctx); err != nil {
		return c.unsent(op, err)
	}
	defer c.leave()
	if open, isOpen, _ := c.machine.Open(); !isOpen || open != op {
		if err := c.settle(ctx); err != nil {
			return c.behind(op, err)
		}
	}
	if it.isEnded() { // another call has settled the release
		return it.err
	}
	_, err := c.perform(ctx, op)
	return err
}

// outlasting returns a context that ends with another one, but not before the time is over.
func outlasting(ctx context.Context, least time.Duration) (context.Context, context.CancelFunc) {
	longer, cancel := context.WithCancel(context.Background())
	go func() {
		timer := time.NewTimer(least)
		defer timer.Stop()
		select {
		case <-timer.C:
		case <-longer.Done():
			return
		}
		select {
		case <-ctx.Done():
			cancel()
		case <-longer.Done():
		}
	}()
	return longer, cancel
}
