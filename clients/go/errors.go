package locks

import (
	"errors"
	"fmt"
	"strings"

	"locks/internal/numbers"
	"locks/internal/wire"
)

// Each of these errors is matched by errors.Is.
var (
	// ErrMayHold matches an error after which the client may hold a lock for which the caller has no Guard.
	ErrMayHold = errors.New("the lock may be held")
	// ErrClosed says that the client was closed. Another process may use its number by now.
	ErrClosed = errors.New("this client is closed")
	// ErrOutOfNumbers says that the client number is used up; take another one.
	ErrOutOfNumbers = numbers.ErrSpent
	// ErrInUse says that another client has the state file open.
	ErrInUse = numbers.ErrInUse

	// ErrNoRoom says that the table has 512 other names. Ask for one of those.
	ErrNoRoom = errors.New("no room: the table has 512 other names, and only those can be granted")
	// ErrBad says that the table was not raised, so it does not know shared names and breaking.
	ErrBad = errors.New("bad: the table does not know this request; Raise makes it understand Share and Break")
	// ErrSpent says that the fence of this name is 2^48. It is never granted again.
	ErrSpent = errors.New("spent: the fences of this name are used up; use another name")
	// ErrUsed says that a member has or had this node number, or a greater one.
	ErrUsed = errors.New("used: a member has or had this node number or a greater one; take a still greater one")
	// ErrFull says that the cluster has seven members.
	ErrFull = errors.New("full: the cluster has 7 members; let one leave first")
	// ErrNotMember says that the node is no member.
	ErrNotMember = errors.New("not a member")
	// ErrLast says that the node is the only member, and stays.
	ErrLast = errors.New("last: the only member stays")
)

// refusals are the answers that are errors without fields.
var refusals = map[wire.Text]error{
	wire.NoRoom: ErrNoRoom, wire.Bad: ErrBad, wire.Spent: ErrSpent, wire.Used: ErrUsed, wire.Full: ErrFull,
	wire.NotMember: ErrNotMember, wire.Last: ErrLast,
}

// Invalid says that an argument is out of its range. Nothing was sent.
type Invalid = wire.Invalid

// StateError says that the state file cannot be used. It names the path and the remedy.
type StateError = numbers.StateError

// Busy says that the lock is held.
type Busy struct {
	Name   string
	Holder uint16 // the client that holds it; of those who share it the lowest
	Fence  uint64
	Client uint16 // the client that asked
	IsOurs bool   // this run holds it, by a Guard
	Cause  error  // the end of the context that ended the wait, if one did
}

// Error describes the failure and its remedy.
func (e *Busy) Error() string {
	text := fmt.Sprintf("%s is held by client %d at fence %d", e.Name, e.Holder, e.Fence)
	switch {
	case e.IsOurs:
		text += ", this one: release its guard first"
	case e.Holder == e.Client:
		text += ", this one, since an earlier run: once nothing of that run works, Adopt or Release it"
	default:
		text += "; wait longer, or Break it at that fence"
	}
	if e.Cause != nil {
		text += ": " + e.Cause.Error()
	}
	return text
}

// Unwrap returns the end of the context that ended the wait, if one did.
func (e *Busy) Unwrap() error { return e.Cause }

// IsOwn reports whether the client itself holds the lock: this run, or an earlier one.
func (e *Busy) IsOwn() bool { return e.Holder == e.Client }

// EarlierShare says that an earlier run of this client shares the name already. That share was left alone, since work
// of the earlier run may go on. Adopt takes it over.
type EarlierShare struct {
	Name   string
	Fence  uint64
	Client uint16
	Cause  error // why it is not known for certain, if it is not
}

// Error describes the failure and its remedy.
func (e *EarlierShare) Error() string {
	text := fmt.Sprintf("client %d shares %s at fence %d since an earlier run: once nothing of that run works, Adopt it",
		e.Client, e.Name, e.Fence)
	if e.Cause != nil {
		text += fmt.Sprintf(" (not certain: %v)", e.Cause)
	}
	return text
}

// Unwrap returns why it is not known for certain, if it is not.
func (e *EarlierShare) Unwrap() error { return e.Cause }

// Is matches ErrMayHold where it is not certain whose the share is.
func (e *EarlierShare) Is(target error) bool { return target == ErrMayHold && e.Cause != nil }

// NotHeld says that the client does not hold the lock at that fence: somebody broke or released it.
type NotHeld struct {
	Name  string
	Fence uint64
}

// Error describes the failure and its remedy.
func (e *NotHeld) Error() string {
	return fmt.Sprintf("%s is not held at fence %d: it was broken or released; stop what relies on it", e.Name, e.Fence)
}

// NotReleased says that a lock was not released, and may stay held.
type NotReleased struct {
	Name  string
	Fence uint64
	Cause error
}

// Error describes the failure and its remedy.
func (e *NotReleased) Error() string {
	text := fmt.Sprintf("%s was not released at fence %d, and may stay held: ", e.Name, e.Fence)
	var unanswered *NoAnswer
	switch {
	case errors.Is(e.Cause, ErrClosed):
		return text + "the client was closed; Release it at that fence by a new one with its number"
	case errors.As(e.Cause, &unanswered):
		return text + unanswered.reason() + "; call Release again"
	}
	return text + e.Cause.Error()
}

// Unwrap returns why the release failed.
func (e *NotReleased) Unwrap() error { return e.Cause }

// Refused says that the service refuses a request. Its reason is one of the Err variables, such as ErrNoRoom.
type Refused struct {
	Asked  string // such as "share db"
	Reason error
}

// Error describes the failure and its remedy.
func (e *Refused) Error() string { return fmt.Sprintf("%s: %v", e.Asked, e.Reason) }

// Unwrap returns the reason.
func (e *Refused) Unwrap() error { return e.Reason }

// Passed says that a request with a greater number of the same client was executed, and this one never will be. Another
// process uses the client number, or the last number was lost.
type Passed struct {
	Asked  string // such as "acquire db"
	Name   string
	Fence  uint64
	Client uint16
	Number uint64
	Last   uint64
	// MayHold is set if the request asked for a lock. Its answer may have been lost before the greater number was
	// executed, so the client may hold the lock.
	MayHold bool
}

// far is how far above the last number of a Passed a client goes on: the node that sent it may be behind.
const far = 1_000_000

// Error describes the failure and its remedy.
func (e *Passed) Error() string {
	text := fmt.Sprintf("%s: passed: number %d is below %d, which client %d has used", e.Asked, e.Number, e.Last, e.Client)
	if e.MayHold {
		text += fmt.Sprintf("; client %d may hold %s: Ask, and once nothing else works as that client, Release it",
			e.Client, e.Name)
	}
	return text + "; " + wayOn(e.Last, "the last number was lost or a clock was set back")
}

// wayOn says how a client goes on above a number that was used.
func wayOn(used uint64, why string) string {
	if used+far > numbers.Max {
		return "no higher number may be sent: use another client number"
	}
	return fmt.Sprintf("end the other process that uses the client number, or, if %s, SkipTo(%d)", why, used+far)
}

// Is matches ErrMayHold.
func (e *Passed) Is(target error) bool { return target == ErrMayHold && e.MayHold }

// OtherAnswer says that the answer was kept for an earlier request under the same number. Nothing is believed of it.
type OtherAnswer struct {
	Asked   string
	Client  uint16
	Number  uint64
	Answer  string
	MayHold bool // the request asked for a lock
}

// Error describes the failure and its remedy.
func (e *OtherAnswer) Error() string {
	return fmt.Sprintf("%s: answered %q, which answers an earlier request: client %d used number %d before; %s",
		e.Asked, e.Answer, e.Client, e.Number, wayOn(e.Number, "its state file was restored"))
}

// Is matches ErrMayHold.
func (e *OtherAnswer) Is(target error) bool { return target == ErrMayHold && e.MayHold }

// NoAnswer says that no answer came before the context or the patience ended.
type NoAnswer struct {
	Asked string // such as "acquire db"
	Name  string
	Fence uint64 // of a release, check or break
	// IsSent is false if nothing was sent, so that nothing happens.
	IsSent bool
	// IsWithdrawn is set if a request for a lock was given up: the lock is not held by it, and never will be.
	IsWithdrawn bool
	// Earlier is the request without an answer which has to be settled first, if there is one.
	Earlier  string
	Unopened int // datagrams that no key of this client opened
	Strange  int // datagrams from addresses that were not asked
	Cause    error

	word wire.Word
}

// Error describes the failure and its remedy.
func (e *NoAnswer) Error() string {
	return fmt.Sprintf("%s: %s; %s", e.Asked, e.reason(), e.remedy())
}

// reason says why there is no answer, as far as it is known.
func (e *NoAnswer) reason() string {
	text := fmt.Sprintf("no answer: %v", e.Cause)
	if e.Unopened > 0 {
		text += fmt.Sprintf("; %d datagrams came that no key of this client opens", e.Unopened)
	}
	if e.Strange > 0 {
		text += fmt.Sprintf("; %d datagrams came from addresses that were not asked", e.Strange)
	}
	return text
}

func (e *NoAnswer) remedy() string {
	switch {
	case e.Earlier != "":
		return fmt.Sprintf("it was not sent, since %q has no answer yet; call again", e.Earlier)
	case !e.IsSent:
		return "it was not sent"
	case e.IsWithdrawn:
		return fmt.Sprintf("it was withdrawn, so %s is not held by it", e.Name)
	case e.mayHold():
		return fmt.Sprintf("%s may be held, or may still be granted; the next call of this client withdraws it", e.Name)
	case e.word == wire.Release:
		return fmt.Sprintf("%s may stay held at fence %d; call Release again", e.Name, e.Fence)
	case e.word == wire.Ask || e.word == wire.Check:
		return "call again"
	}
	return "it may have taken effect, or still may; call again"
}

func (e *NoAnswer) mayHold() bool {
	return e.IsSent && !e.IsWithdrawn && (e.word == wire.Acquire || e.word == wire.Share)
}

// Unwrap returns the end of the context.
func (e *NoAnswer) Unwrap() error { return e.Cause }

// Is matches ErrMayHold where a lock was asked for, and was not withdrawn.
func (e *NoAnswer) Is(target error) bool { return target == ErrMayHold && e.mayHold() }

// A Hold is a lock that a run of a client was granted.
type Hold struct {
	Name  string
	Fence uint64 // 0 if it is not known whether it was granted
}

// StillHeld says which locks a client held when it was closed. They stay held.
type StillHeld struct {
	Client uint16
	Holds  []Hold
}

// Error describes the failure and its remedy.
func (e *StillHeld) Error() string {
	var held []string
	for _, it := range e.Holds {
		if it.Fence == 0 {
			held = append(held, fmt.Sprintf("perhaps %s", it.Name))
			continue
		}
		held = append(held, fmt.Sprintf("%s at fence %d", it.Name, it.Fence))
	}
	return fmt.Sprintf("client %d was closed while it held %s: Release each by a client with this number, or Break it",
		e.Client, strings.Join(held, ", "))
}
