package locks

import (
	"context"
	"errors"
	"time"
)

const (
	// defaultBeat is how often a leader shows that it lives.
	defaultBeat = 500 * time.Millisecond
	// defaultDead is how long a heartbeat stands still before another client takes over.
	defaultDead = 2 * time.Second
)

// An Election chooses one leader of the clients that take part, and another one if the leader dies. The clients in
// Python and Rust can take part. The table must be raised.
//
// The leader holds the lock Name. It acquires and releases the lock Name/b each Beat, so the last fence of that is a
// heartbeat that all can read. A client that sees it stand still for Dead breaks the lock Name and takes it. A leader
// that was paused for that long may still believe that it leads: only the fence tells the two apart.
type Election struct {
	Client *Client
	Name   string        // of at most 30 letters
	Beat   time.Duration // 0 stands for half a second
	Dead   time.Duration // several Beats; 0 stands for two seconds
}

// Lead waits until this client leads, and calls work with the fence since which it does. The context of work is
// cancelled when another client has taken over. When work returns, Lead resigns, and returns the error of work, or of
// the release: *NotHeld if another client has taken over.
func (e *Election) Lead(ctx context.Context, work func(ctx context.Context, fence uint64) error) error {
	guard, err := e.Campaign(ctx)
	if err != nil {
		return err
	}
	reign, end := context.WithCancel(ctx)
	beaten := make(chan struct{})
	go func() {
		defer close(beaten)
		defer end()
		e.beat(reign, guard)
	}()
	err = work(reign, guard.Fence())
	end()
	<-beaten
	if released := guard.Release(ctx); err == nil {
		err = released
	}
	return err
}

// Leader returns who leads, since which fence.
func (e *Election) Leader(ctx context.Context) (State, error) {
	return e.Client.Ask(ctx, e.Name)
}

// Campaign waits until this client leads, and returns the guard of the lock. It sends no heartbeat, so another client
// takes over after Dead: call Lead instead, or send them.
func (e *Election) Campaign(ctx context.Context) (*Guard, error) {
	var seen pulse
	for {
		guard, err := e.Client.TryLock(ctx, e.Name)
		var busy *Busy
		switch {
		case errors.As(err, &busy) && !busy.IsOurs:
			err = e.observe(ctx, busy.Fence, &seen)
		case !isUnanswered(err):
			return guard, err
		}
		if err != nil && (!isUnanswered(err) || ctx.Err() != nil) {
			return nil, err
		}
		if err := e.Client.sleep(ctx, orElse(e.Beat, defaultBeat)); err != nil {
			return nil, &NoAnswer{Asked: "lead " + e.Name, Name: e.Name, Cause: err}
		}
	}
}

// A pulse is what a client has seen of the leader.
type pulse struct {
	leads uint64        // the fence at which the leader holds the lock
	beats uint64        // the last fence of its heartbeat
	still time.Duration // how long it has been seen without a change, while nodes answered
}

// observe looks at the leader, and breaks its lock if it is dead.
func (e *Election) observe(ctx context.Context, leads uint64, seen *pulse) error {
	beat, err := e.Client.Ask(ctx, e.beatName())
	if err != nil {
		return err
	}
	if leads != seen.leads || beat.Fence != seen.beats {
		*seen = pulse{leads: leads, beats: beat.Fence}
		return nil
	}
	// The clock does not count: it also goes on while no node answers, or while this process is stopped.
	seen.still += orElse(e.Beat, defaultBeat)
	if seen.still < orElse(e.Dead, defaultDead) {
		return nil
	}
	_, err = e.Client.Break(ctx, e.Name, leads)
	return err
}

// beat shows that the leader lives, until the context ends or the lock is lost.
func (e *Election) beat(ctx context.Context, guard *Guard) {
	for {
		isLeader, err := guard.Check(ctx)
		if err == nil && !isLeader {
			return
		}
		e.beatOnce(ctx)
		if e.Client.sleep(ctx, orElse(e.Beat, defaultBeat)) != nil {
			return
		}
	}
}

// beatOnce raises the fence of the heartbeat. It breaks the one that a leader held as it died. What has no answer is
// tried anew by the next beat.
func (e *Election) beatOnce(ctx context.Context) {
	ctx, cancel := context.WithTimeout(ctx, orElse(e.Dead, defaultDead))
	defer cancel()
	guard, err := e.Client.TryLock(ctx, e.beatName())
	var busy *Busy
	if errors.As(err, &busy) {
		e.Client.Break(ctx, e.beatName(), busy.Fence)
	}
	if err == nil {
		guard.Release(ctx)
	}
}

func (e *Election) beatName() string { return e.Name + "/b" }
