package wire

import (
	"encoding/binary"
	"fmt"
)

// A Text names an answer, as `locks ask` prints it.
type Text string

// The texts of answers.
const (
	Granted       Text = "granted"
	Busy          Text = "busy"
	Released      Text = "released"
	NotHeld       Text = "not held"
	Free          Text = "free"
	Held          Text = "held"
	Valid         Text = "valid"
	Stale         Text = "stale"
	NoRoom        Text = "no room"
	Bad           Text = "bad"
	Spent         Text = "spent"
	Shared        Text = "shared"
	HeldShared    Text = "held shared"
	Broken        Text = "broken"
	Joined        Text = "joined"
	Used          Text = "used"
	Full          Text = "full"
	Left          Text = "left"
	NotMember     Text = "not a member"
	Last          Text = "last"
	Raised        Text = "raised"
	AlreadyRaised Text = "already raised"
)

// A shape is the fields that follow the tag of an answer.
type shape int

const (
	empty       shape = iota
	fence             // 1 to 2^48
	lastFence         // 0 to 2^48
	holderFence       // a client and a fence
	countFence        // how many clients, and a fence
)

var lengths = map[shape]int{empty: 0, fence: 8, lastFence: 8, holderFence: 10, countFence: 9}

var answers = map[byte]struct {
	text  Text
	shape shape
}{
	0x01: {Granted, fence},
	0x02: {Busy, holderFence},
	0x03: {Released, empty},
	0x04: {NotHeld, empty},
	0x05: {Free, lastFence},
	0x06: {Held, holderFence},
	0x07: {Valid, empty},
	0x08: {Stale, empty},
	0x09: {NoRoom, empty},
	0x0a: {Bad, empty},
	0x0b: {Spent, empty},
	0x0c: {Shared, fence},
	0x0d: {HeldShared, countFence},
	0x0e: {Broken, empty},
	0x20: {Joined, empty},
	0x21: {Used, empty},
	0x22: {Full, empty},
	0x23: {Left, empty},
	0x24: {NotMember, empty},
	0x25: {Last, empty},
	0x26: {Raised, empty},
	0x27: {AlreadyRaised, empty},
}

// fitting has the answers that each word can get.
var fitting = map[Word][]Text{
	Acquire: {Granted, Busy, NoRoom, Spent, Bad},
	Share:   {Shared, Busy, NoRoom, Spent, Bad},
	Release: {Released, NotHeld, Bad},
	Ask:     {Free, Held, HeldShared, Bad},
	Check:   {Valid, Stale, Bad},
	Break:   {Broken, Stale, Bad},
	Join:    {Joined, Used, Full},
	Leave:   {Left, NotMember, Last},
	Raise:   {Raised, AlreadyRaised},
}

// An Answer is what a request was answered.
type Answer struct {
	Text    Text
	Holder  uint16 // of Busy and Held
	Holders uint8  // of HeldShared
	Fence   uint64 // of Granted, Shared, Busy, Held and HeldShared; the last one of Free
	shape   shape
}

// String spells the answer as `locks ask` prints it.
func (a Answer) String() string {
	switch a.shape {
	case empty:
		return string(a.Text)
	case holderFence:
		return fmt.Sprintf("%s %d %d", a.Text, a.Holder, a.Fence)
	case countFence:
		return fmt.Sprintf("%s %d %d", a.Text, a.Holders, a.Fence)
	}
	return fmt.Sprintf("%s %d", a.Text, a.Fence)
}

// Fits reports whether the answer can be one to that word. One that does not fit was kept for an earlier request.
func (a Answer) Fits(word Word) bool {
	for _, text := range fitting[word] {
		if text == a.Text {
			return true
		}
	}
	return false
}

// readAnswer reads what follows the number.
func readAnswer(rest []byte) (Answer, bool) {
	if len(rest) == 0 {
		return Answer{}, false
	}
	known, isKnown := answers[rest[0]]
	fields := rest[1:]
	if !isKnown || len(fields) != lengths[known.shape] {
		return Answer{}, false
	}
	answer := Answer{Text: known.text, shape: known.shape}
	return answer, answer.read(fields)
}

// read takes the fields of the shape, and reports whether they are in their ranges.
func (a *Answer) read(fields []byte) bool {
	least := uint64(1)
	switch a.shape {
	case empty:
		return true
	case lastFence:
		least = 0
	case holderFence:
		a.Holder = binary.BigEndian.Uint16(fields)
		if a.Holder < 1 || a.Holder > MaxClient {
			return false
		}
	case countFence:
		a.Holders = fields[0]
		if a.Holders < 1 || a.Holders > maxShares {
			return false
		}
	}
	a.Fence = binary.BigEndian.Uint64(fields[len(fields)-8:])
	return least <= a.Fence && a.Fence <= MaxCount
}
