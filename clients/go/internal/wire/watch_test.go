package wire

import (
	"encoding/hex"
	"testing"
)

// ticket reads the words CLIENT NUMBER FENCE MODE NAME.
func ticket(t *testing.T, cluster string, words []string) Ticket {
	t.Helper()
	return Ticket{
		Cluster: number(t, cluster), Client: uint16(number(t, words[0])), Number: number(t, words[1]),
		Fence: number(t, words[2]), IsShared: words[3] == "share", Name: words[4],
	}
}

func TestEachWatchHasItsBytes(t *testing.T) {
	each(t, func(t *testing.T, _ string, words []string) {
		periods := byte(number(t, words[8]))
		if got := hex.EncodeToString(ticket(t, words[1], words[3:]).Watch(periods)); got != words[0] {
			t.Errorf("got %s", got)
		}
	}, "watch")
}

var news = map[string]News{"free": NewsFree, "held": NewsHeld, "not-here": NewsNotHere}

func TestEachNoticeIsRead(t *testing.T) {
	each(t, func(t *testing.T, _ string, words []string) {
		its, data := ticket(t, words[1], words[3:]), unhex(t, words[0])
		wanted := Notice{uint32(number(t, words[2])), news[words[8]], uint16(number(t, words[9]))}
		if got, isOne := its.Notice(data); !isOne || got != wanted {
			t.Errorf("got %v %+v", isOne, got)
		}
		if name, isOne := NoticeName(data); !isOne || name != its.Name {
			t.Errorf("got %v %q", isOne, name)
		}
		for length := range data {
			if _, isOne := its.Notice(data[:length]); isOne {
				t.Errorf("read when cut to %d bytes", length)
			}
		}
	}, "notice")
}

func TestAllElseIsNoNotice(t *testing.T) {
	first := Ticket{Cluster: 5, Client: 7, Number: 1, Fence: 3, Name: "db"} // of the first line
	each(t, func(t *testing.T, _ string, words []string) {
		if got, isOne := first.Notice(unhex(t, words[0])); isOne {
			t.Errorf("read %+v", got)
		}
	}, "unread")
}

func TestANoticeIsKnownBeforeItsSealIsChecked(t *testing.T) {
	opened := 0
	each(t, func(t *testing.T, _ string, words []string) {
		datagram := unhex(t, words[4])
		if name, isOne := NoticeName(unhex(t, words[0])); isOne != (len(datagram) == watchBytes) || isOne && name != "db" {
			t.Errorf("got %v %q", isOne, name)
		} else if isOne {
			opened++
		}
	}, "opened")
	each(t, func(t *testing.T, _ string, words []string) {
		for _, payload := range [][]byte{nil, unhex(t, words[0])} {
			if name, isOne := NoticeName(payload); isOne {
				t.Errorf("%x: got %q", payload, name)
			}
		}
	}, "request", "answer", "elsewhere", "passed", "sealed", "watch")
	if opened != 1 {
		t.Errorf("%d sealed notices", opened)
	}
}

func TestANameThatIsTooLongIsNoNotice(t *testing.T) {
	data := Ticket{Cluster: 5, Client: 7, Name: "db"}.Watch(1)
	copy(data, noticeHead)
	data[35] = 33
	if name, isOne := NoticeName(data); isOne {
		t.Errorf("got %q", name)
	}
}
