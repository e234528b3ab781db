package locks

import (
	"context"
	"errors"
	"fmt"
	"time"

	"locks/internal/core"
	"locks/internal/wire"
)

// call sends one request within the patience, and returns its answer.
func (c *Client) call(ctx context.Context, op wire.Op) (wire.Answer, error) {
	if err := op.Valid(); err != nil {
		return wire.Answer{}, err
	}
	ctx, cancel := context.WithTimeout(ctx, c.patience)
	defer cancel()
	if err := c.enter(ctx); err != nil {
		return wire.Answer{}, c.unsent(op, err)
	}
	defer c.leave()
	return c.perform(ctx, op)
}

// perform sends a request after the one before it was settled. A release that has no answer yet is repeated as it is.
func (c *Client) perform(ctx context.Context, op wire.Op) (wire.Answer, error) {
	if open, isOpen, _ := c.machine.Open(); isOpen && open == op && op.Word == wire.Release {
		return c.finish(ctx)
	}
	if err := c.settle(ctx); err != nil {
		return wire.Answer{}, c.behind(op, err)
	}
	if err := c.machine.Begin(op); err != nil {
		return wire.Answer{}, fmt.Errorf("%s: it was not sent: %w", op, err)
	}
	return c.finish(ctx)
}

// finish sends the open request until it has an outcome. One that changes nothing is dropped where it has none.
func (c *Client) finish(ctx context.Context) (wire.Answer, error) {
	op, _, _ := c.machine.Open()
	outcome, err := c.exchange(ctx)
	if err != nil {
		return wire.Answer{}, c.unanswered(op, err)
	}
	c.note(op, outcome)
	return c.judged(op, outcome)
}

// exchange drives the machine until the open request has an outcome.
func (c *Client) exchange(ctx context.Context) (*core.Outcome, error) {
	begun := time.Now()
	warnAt := begun.Add(warnAfter)
	c.socket.send(c.machine.Start(begun))
	for {
		came, isOne, err := c.receive(ctx, sooner(c.machine.Due(), warnAt))
		if err != nil {
			return nil, err
		}
		now := time.Now()
		if !now.Before(warnAt) {
			c.warn(now.Sub(begun))
			warnAt = now.Add(warnAfter)
		}
		c.socket.send(c.machine.Tick(now)) // also while datagrams of strangers come
		if !isOne {
			continue
		}
		sends, outcome, err := c.machine.Hear(now, came)
		c.socket.send(sends)
		if outcome != nil || err != nil {
			return outcome, err
		}
	}
}

// receive waits for a datagram until that time. It reports whether one came.
func (c *Client) receive(ctx context.Context, until time.Time) (core.Datagram, bool, error) {
	timer := time.NewTimer(time.Until(until))
	defer timer.Stop()
	select {
	case <-ctx.Done():
		return core.Datagram{}, false, ctx.Err()
	case <-c.closing:
		return core.Datagram{}, false, ErrClosed
	case <-timer.C:
		return core.Datagram{}, false, nil
	case node := <-c.leads:
		c.socket.send(c.machine.Lead(node))
		return core.Datagram{}, false, nil
	case came := <-c.socket.came:
		return came, true, nil
	}
}

func sooner(one, other time.Time) time.Time {
	if one.Before(other) {
		return one
	}
	return other
}

func (c *Client) warn(waited time.Duration) {
	op, _, _ := c.machine.Open()
	// The request goes on meanwhile, and Log may wait for its end.
	go c.tell(Event{Kind: EventUnreachable, Asked: op.String(), Name: op.Name, Fence: op.Fence, Wait: waited})
}

// unsent is the error of a request that was not sent.
func (c *Client) unsent(op wire.Op, cause error) error {
	return &NoAnswer{Asked: op.String(), Name: op.Name, Fence: op.Fence, Cause: cause, word: op.Word}
}

// behind is the error of a request that was not sent since the one before it has no answer.
func (c *Client) behind(op wire.Op, cause error) error {
	open, isOpen, _ := c.machine.Open()
	if !isOpen {
		return fmt.Errorf("%s: it was not sent: %w", op, cause)
	}
	return &NoAnswer{
		Asked: op.String(), Name: op.Name, Fence: op.Fence, Earlier: open.String(), Cause: cause, word: op.Word,
	}
}

// unanswered is the error of the open request when a context ended it, or its numbers.
func (c *Client) unanswered(op wire.Op, cause error) error {
	_, isOpen, isSent := c.machine.Open()
	if !isOpen {
		return fmt.Errorf("%s: it was not sent: %w", op, cause)
	}
	if !isSent || op.IsHarmless() {
		c.machine.Drop()
	}
	return &NoAnswer{
		Asked: op.String(), Name: op.Name, Fence: op.Fence, IsSent: isSent,
		Unopened: c.machine.Unopened, Strange: c.machine.Strange, Cause: cause, word: op.Word,
	}
}

// settle ends the request that an earlier call left without an answer: a lock that it was granted is released. It
// returns an error if the request still has no answer.
func (c *Client) settle(ctx context.Context) error {
	for {
		op, isOpen, isSent := c.machine.Open()
		if !isOpen {
			return nil
		}
		before := c.before
		answer, err := c.finish(ctx)
		if _, isOpen, _ := c.machine.Open(); isOpen {
			return err
		}
		c.tellLater(Event{Kind: EventSettled, Asked: op.String(), Name: op.Name, Fence: answer.Fence, Err: err})
		if err != nil || !isSent || !op.IsGranting() {
			continue
		}
		if err := c.disclaim(ctx, op, before, answer.Fence); err != nil {
			return err
		}
	}
}

// disclaim begins the release of a lock that nobody waits for any more, unless it is the share of an earlier run.
func (c *Client) disclaim(ctx context.Context, op wire.Op, before wire.Answer, fence uint64) error {
	if op.Word == wire.Share {
		if earlier := c.earlier(ctx, op.Name, before, fence); earlier != nil {
			c.tellLater(Event{Kind: EventSettled, Asked: op.String(), Name: op.Name, Fence: fence, Err: earlier})
			return nil
		}
	}
	return c.machine.Begin(wire.Op{Word: wire.Release, Name: op.Name, Fence: fence})
}

// judged returns the answer of an outcome, or the refusal that it is.
func (c *Client) judged(op wire.Op, outcome *core.Outcome) (wire.Answer, error) {
	asked, answer, mayHold := op.String(), outcome.Answer, op.IsGranting() && !outcome.IsFirst
	switch {
	case outcome.IsPassed():
		return answer, &Passed{
			Asked: asked, Name: op.Name, Fence: op.Fence, Client: c.id, Number: outcome.Number, Last: outcome.Last,
			MayHold: mayHold,
		}
	case outcome.IsOther():
		return answer, &OtherAnswer{
			Asked: asked, Client: c.id, Number: outcome.Number, Answer: answer.String(), MayHold: mayHold,
		}
	case answer.Text == wire.Busy:
		return answer, &Busy{
			Name: op.Name, Holder: answer.Holder, Fence: answer.Fence, Client: c.id, IsOurs: c.isHeld(op.Name, answer.Fence),
		}
	case answer.Text == wire.NotHeld:
		return answer, &NotHeld{op.Name, op.Fence}
	}
	if reason := refusals[answer.Text]; reason != nil {
		return answer, &Refused{asked, reason}
	}
	return answer, nil
}

// isUnanswered reports whether a request has no outcome.
func isUnanswered(err error) bool {
	var unanswered *NoAnswer
	return errors.As(err, &unanswered)
}
