package locks

import (
	"context"
	"errors"
	"fmt"
	"sort"
)

// Guards are several locks that a client holds, by name in rising order.
type Guards []*Guard

// LockAll takes several locks, all or none. It takes them in the order of their names, so that two clients that want
// the same ones do not wait for each other. Where one is not granted those before it are released; Holds tells which
// were not.
func (c *Client) LockAll(ctx context.Context, names ...string) (Guards, error) {
	sorted := append([]string(nil), names...)
	sort.Strings(sorted)
	for at := range sorted {
		if at > 0 && sorted[at] == sorted[at-1] {
			return nil, &Invalid{What: "names", Value: fmt.Sprint(sorted), Range: "different"}
		}
	}
	var guards Guards
	for _, name := range sorted {
		guard, err := c.Lock(ctx, name)
		if err != nil {
			return nil, guards.undone(ctx, err)
		}
		guards = append(guards, guard)
	}
	return guards, nil
}

// undone releases all of them after an error, which it returns.
func (g Guards) undone(ctx context.Context, err error) error {
	if kept := g.Release(ctx); kept != nil {
		return &PartlyHeld{err, kept}
	}
	return err
}

// Release gives all of them back, the last one first. It tries each, and returns the first error.
func (g Guards) Release(ctx context.Context) error {
	var first error
	for at := len(g) - 1; at >= 0; at-- {
		if err := g[at].Release(ctx); err != nil && first == nil {
			first = err
		}
	}
	return first
}

// Fence returns the fence of a name, 0 if it is not among them.
func (g Guards) Fence(name string) uint64 {
	for _, guard := range g {
		if guard.Name() == name {
			return guard.Fence()
		}
	}
	return 0
}

// PartlyHeld says that not all of several locks were granted, and that not all of the granted ones were released.
type PartlyHeld struct {
	Refusal error
	Kept    error // *NotReleased, which names the lock and its fence, or *NotHeld
}

// Error describes the failure and its remedy.
func (e *PartlyHeld) Error() string { return fmt.Sprintf("%v; %v", e.Refusal, e.Kept) }

// Unwrap returns why not all were granted.
func (e *PartlyHeld) Unwrap() error { return e.Refusal }

// As finds the error of the release too.
func (e *PartlyHeld) As(target any) bool { return errors.As(e.Kept, target) }

// Is matches ErrMayHold.
func (e *PartlyHeld) Is(target error) bool { return target == ErrMayHold }
