package locks

import (
	"context"
	"fmt"
	"strings"
	"testing"

	"locks/internal/numbers"
	"locks/internal/wire"
)

func TestEachErrorNamesTheLockTheFenceAndTheRemedy(t *testing.T) {
	end := context.DeadlineExceeded
	unanswered := &NoAnswer{Asked: "release db 3", Name: "db", Fence: 3, IsSent: true, Cause: end, word: wire.Release}
	asked := &NoAnswer{Asked: "acquire db", Name: "db", IsSent: true, Cause: end, word: wire.Acquire}
	for _, row := range []struct {
		err  error
		says []string
	}{
		{&Busy{Name: "db", Holder: 8, Fence: 3, Client: 7}, []string{"db", "client 8", "fence 3", "Break"}},
		{&Busy{Name: "db", Holder: 7, Fence: 3, Client: 7}, []string{"db", "fence 3", "earlier run", "Adopt or Release"}},
		{&Busy{Name: "db", Holder: 7, Fence: 3, Client: 7, IsOurs: true}, []string{"db", "fence 3", "release its guard"}},
		{&EarlierShare{Name: "db", Fence: 3, Client: 7}, []string{"db", "fence 3", "client 7", "Adopt it"}},
		{&NotHeld{Name: "db", Fence: 3}, []string{"db", "fence 3", "stop what relies on it"}},
		{&NotReleased{Name: "db", Fence: 3, Cause: unanswered}, []string{"db", "fence 3", "call Release again"}},
		{&NotReleased{Name: "db", Fence: 3, Cause: ErrClosed}, []string{"db", "fence 3", "Release it at that fence"}},
		{&Refused{Asked: "share db", Reason: ErrBad}, []string{"share db", "Raise makes it understand"}},
		{&Refused{Asked: "acquire db", Reason: ErrNoRoom}, []string{"acquire db", "only those can be granted"}},
		{&Refused{Asked: "acquire db", Reason: ErrSpent}, []string{"acquire db", "use another name"}},
		{&Passed{Asked: "acquire db", Name: "db", Client: 7, Number: 1, Last: 2, MayHold: true},
			[]string{"acquire db", "client 7 may hold db", "Release it", "SkipTo(1000002)"}},
		{&Passed{Asked: "ask db", Client: 7, Number: 1, Last: numbers.Max}, []string{"ask db", "another client number"}},
		{&OtherAnswer{Asked: "ask db", Client: 7, Number: 1, Answer: "granted 1"}, []string{"ask db", "SkipTo(1000001)"}},
		{unanswered, []string{"db", "fence 3", "call Release again"}},
		{asked, []string{"db may be held", "the next call of this client withdraws it"}},
		{&NoAnswer{Asked: "ask db", Cause: end, Unopened: 3}, []string{"ask db", "3 datagrams", "it was not sent"}},
		{&StillHeld{Client: 7, Holds: []Hold{{"db", 3}, {"x", 0}}},
			[]string{"client 7", "db at fence 3", "perhaps x", "Break"}},
	} {
		for _, text := range row.says {
			if !strings.Contains(row.err.Error(), text) {
				t.Errorf("%T: got %q, without %q", row.err, fmt.Sprint(row.err), text)
			}
		}
	}
}
