package locks

import (
	"fmt"
	"time"
)

// An EventKind says what happened.
type EventKind int

// The kinds of events.
const (
	// EventUnreachable: no node has answered a request for Wait. It comes every five seconds.
	EventUnreachable EventKind = iota + 1
	// EventWaiting: the lock is held by Holder at Fence. It is asked for again after Wait: sooner if a node says that it
	// is free, and later, after 4 seconds at most, if a node has put the client in its queue.
	EventWaiting
	// EventSettled: a request that an earlier call left without an answer has one, or was passed: Err says so.
	EventSettled
	// EventNotReleased: a release failed, and the lock may stay held: Err says why.
	EventNotReleased
	// EventLost: a lock that this run held was broken.
	EventLost
	// EventNotKept: at Close the state file did not take back the numbers that were not used: Err says why.
	EventNotKept
	// EventFarJoin: a join is sent whose node has a number above twice that of each other node of Hosts. No smaller
	// number can join after it.
	EventFarJoin
)

// An Event is what a client tells of itself while it works.
type Event struct {
	Kind   EventKind
	Asked  string // the request, such as "acquire db"
	Name   string // of the lock, if there is one
	Fence  uint64 // where it is known
	Holder uint16 // of EventWaiting
	Wait   time.Duration
	Err    error
}

// String describes the event in one line.
func (e Event) String() string {
	switch e.Kind {
	case EventUnreachable:
		return fmt.Sprintf("%s: no node has answered for %v", e.Asked, e.Wait.Round(time.Second))
	case EventWaiting:
		return fmt.Sprintf("%s: held by client %d at fence %d; asked for again in %v",
			e.Asked, e.Holder, e.Fence, e.Wait.Round(time.Millisecond))
	case EventSettled:
		if e.Err != nil {
			return fmt.Sprintf("%s: settled: %v", e.Asked, e.Err)
		}
		return fmt.Sprintf("%s: answered after its call had ended", e.Asked)
	case EventNotReleased:
		return fmt.Sprintf("%s: not released: %v", e.Name, e.Err)
	case EventLost:
		return fmt.Sprintf("%s: no longer held at fence %d: it was broken", e.Name, e.Fence)
	case EventNotKept:
		return fmt.Sprintf("reserved numbers are skipped: %v", e.Err)
	case EventFarJoin:
		return fmt.Sprintf("%s: above twice the greatest other node of the hosts: no smaller number can join after it",
			e.Asked)
	}
	return fmt.Sprintf("event %d", e.Kind)
}
