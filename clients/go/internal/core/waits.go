package core

import "time"

// steps are the waits between two sends of the same bytes; the last one again and again.
var steps = []time.Duration{500 * time.Millisecond, time.Second, 2 * time.Second, 4 * time.Second}

// polls are the same between two requests for a lock that one holder keeps. All but the last, scattered, are at most a
// second.
var polls = []time.Duration{
	50 * time.Millisecond, 100 * time.Millisecond, 200 * time.Millisecond, 400 * time.Millisecond, 800 * time.Millisecond,
}

const (
	// longAfter is how many polls one holder is waited for like that, about half a minute.
	longAfter = 34
	longPoll  = 3200 * time.Millisecond
	// withPlace is how long a client waits that has a place in the queue of a node, which tells it when to ask.
	withPlace = time.Minute
)

// scattered makes a wait up to a quarter longer or shorter, so that clients do not ask in step.
func scattered(wait time.Duration, random func() float64) time.Duration {
	return time.Duration(float64(wait) * (0.75 + 0.5*random()))
}

// Polls are the waits of one client for one lock. They begin anew when the fence has changed.
type Polls struct {
	Random func() float64 // 0 to 1
	step   int
	fence  uint64
}

// After returns the next wait for a lock that is held at this fence.
func (p *Polls) After(fence uint64) time.Duration {
	if fence != p.fence {
		p.step, p.fence = 0, fence
	}
	wait := longPoll
	if p.step < longAfter {
		wait = polls[least(p.step, len(polls)-1)]
	}
	p.step++
	return scattered(wait, p.Random)
}

func least(one, other int) int {
	if one < other {
		return one
	}
	return other
}
