package locks

import (
	"context"
	"fmt"

	"locks/internal/wire"
)

// A State says who holds a name.
type State struct {
	Holders  int    // 0 if it is free, 1 to 8 if it is shared
	Holder   uint16 // the client that holds it alone; 0 if it is free or shared
	IsShared bool
	Fence    uint64 // at which it is held; of a free name the last one, 0 if it was never granted
}

// IsFree reports whether nobody holds the name.
func (s State) IsFree() bool { return s.Holders == 0 }

// String describes the state.
func (s State) String() string {
	switch {
	case s.IsFree():
		return fmt.Sprintf("free, last fence %d", s.Fence)
	case s.IsShared:
		return fmt.Sprintf("shared by %d clients at fence %d", s.Holders, s.Fence)
	}
	return fmt.Sprintf("held by client %d at fence %d", s.Holder, s.Fence)
}

// Ask returns who holds a name.
func (c *Client) Ask(ctx context.Context, name string) (State, error) {
	answer, err := c.call(ctx, wire.Op{Word: wire.Ask, Name: name})
	if err != nil {
		return State{}, err
	}
	switch answer.Text {
	case wire.Held:
		return State{Holders: 1, Holder: answer.Holder, Fence: answer.Fence}, nil
	case wire.HeldShared:
		return State{Holders: int(answer.Holders), IsShared: true, Fence: answer.Fence}, nil
	}
	return State{Fence: answer.Fence}, nil
}

// Check reports whether a name was held at that fence when a node executed this.
func (c *Client) Check(ctx context.Context, name string, fence uint64) (bool, error) {
	return c.isAnswered(ctx, wire.Op{Word: wire.Check, Name: name, Fence: fence}, wire.Valid)
}

// Break frees a name of all who hold it at that fence, and reports whether it was held at it. The holders are not told.
// The table must be raised.
func (c *Client) Break(ctx context.Context, name string, fence uint64) (bool, error) {
	return c.isAnswered(ctx, wire.Op{Word: wire.Break, Name: name, Fence: fence}, wire.Broken)
}

// Raise makes the table understand shared names and breaking, permanently for the cluster. It reports whether it did
// not before.
func (c *Client) Raise(ctx context.Context) (bool, error) {
	return c.isAnswered(ctx, wire.Op{Word: wire.Raise}, wire.Raised)
}

// Release gives back a lock that this client holds at that fence without a Guard, such as one of an earlier run. It
// returns *NotHeld if the client does not hold it so.
func (c *Client) Release(ctx context.Context, name string, fence uint64) error {
	_, err := c.call(ctx, wire.Op{Word: wire.Release, Name: name, Fence: fence})
	return err
}

// Join adds a node to the cluster, which listens at that port. It returns ErrUsed or ErrFull if it is not added. Log is
// called first if the number is above twice that of each other node of Hosts.
func (c *Client) Join(ctx context.Context, node uint32, port uint16) error {
	op := wire.Op{Word: wire.Join, Node: node, Port: port}
	if op.Valid() == nil && c.isFar(node) {
		c.tell(Event{Kind: EventFarJoin, Asked: op.String()})
	}
	_, err := c.call(ctx, op)
	return err
}

// isFar reports whether a number is above twice that of each other node of the hosts, if there is one.
func (c *Client) isFar(node uint32) bool {
	greatest := uint32(0)
	for host := range c.hosts {
		if host != node && host > greatest {
			greatest = host
		}
	}
	return greatest > 0 && uint64(node) > 2*uint64(greatest)
}

// Leave removes a node from the cluster. It returns ErrNotMember or ErrLast if it is not removed.
func (c *Client) Leave(ctx context.Context, node uint32) error {
	_, err := c.call(ctx, wire.Op{Word: wire.Leave, Node: node})
	return err
}

// isAnswered reports whether a request is answered by that text.
func (c *Client) isAnswered(ctx context.Context, op wire.Op, text wire.Text) (bool, error) {
	answer, err := c.call(ctx, op)
	return answer.Text == text, err
}
