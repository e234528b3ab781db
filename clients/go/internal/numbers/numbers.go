// Package numbers gives the numbers of requests, each greater than all before, also after a restart if a file keeps
// them.
package numbers

import (
	"errors"
	"fmt"
	"time"

	"locks/internal/wire"
)

// Max is the greatest number that is used. After 2^48 a client number could never ask again.
const Max = wire.MaxCount - 1<<32

const (
	// block is how many numbers one write of the file reserves.
	block = 1000
	// spare is how many reserved numbers are left for releases, so that a full disk keeps none from being sent.
	spare = 16
)

// ErrSpent says that the numbers of a client are used up, all to 2^48 - 2^32.
var ErrSpent = errors.New("the numbers of this client are used up: use another client number")

// Numbers are those of one client's requests. They are not for several goroutines at a time.
type Numbers struct {
	last     uint64 // the last number that was used
	reserved uint64 // the last one that may be used before more are kept
	state    *state
}

// Milliseconds returns the milliseconds since 1970, a first number for a client that does not know its last one.
func Milliseconds() uint64 {
	now := time.Now().UnixMilli()
	switch {
	case now < 1:
		return 1
	case now > Max:
		return Max
	}
	return uint64(now)
}

// Open returns numbers that go on above the one in the state file at path, and not below first. Without a path no file
// keeps them. A first of 0 requires the file to be there. The first request makes a new file.
func Open(path string, first uint64) (*Numbers, error) {
	if first > Max || first == 0 && path == "" {
		return nil, invalid(first)
	}
	if path == "" {
		return &Numbers{last: first - 1, reserved: Max}, nil
	}
	state, last, err := openState(path, first > 0)
	if err != nil {
		return nil, err
	}
	if first > last+1 {
		last = first - 1
	}
	return &Numbers{last: last, reserved: last, state: state}, nil
}

func invalid(first uint64) error {
	return &wire.Invalid{What: "first number", Value: fmt.Sprint(first), Range: "1 to 2^48 - 2^32"}
}

// Take returns the next number, which is kept before it is used. Only what frees a lock takes one of the last few that
// are reserved.
func (n *Numbers) Take(isFreeing bool) (uint64, error) {
	left := uint64(spare)
	if isFreeing {
		left = 0
	}
	if n.reserved-n.last <= left {
		if err := n.reserve(); err != nil {
			return 0, err
		}
	}
	n.last++
	return n.last, nil
}

// SkipTo goes on from first or above, and keeps that.
func (n *Numbers) SkipTo(first uint64) error {
	if first < 1 || first > Max {
		return invalid(first)
	}
	if first > n.last+1 {
		n.last = first - 1
		if n.reserved < n.last {
			n.reserved = n.last
		}
	}
	if n.state == nil {
		return nil
	}
	return n.reserve()
}

func (n *Numbers) reserve() error {
	reserved := n.last + block
	if n.state == nil || reserved > Max {
		return ErrSpent
	}
	if err := n.state.keep(reserved); err != nil {
		return err
	}
	n.reserved = reserved
	return nil
}

// Close gives reserved numbers that were not used back to the file, and lets another client use it. Where that fails
// they are skipped.
func (n *Numbers) Close() error {
	if n.state == nil {
		return nil
	}
	defer n.state.close()
	if 1 <= n.last && n.last < n.reserved {
		return n.state.keep(n.last)
	}
	return nil
}
