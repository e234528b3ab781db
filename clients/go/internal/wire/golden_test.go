package wire

import (
	"bytes"
	"crypto/hmac"
	"crypto/sha256"
	"encoding/binary"
	"encoding/hex"
	"os"
	"strconv"
	"strings"
	"testing"
)

// The files that the tests of all clients read.
var golden = []string{"../../../golden.txt", "../../../golden_watches.txt"}

func goldenLines(t *testing.T) []string {
	t.Helper()
	var lines []string
	for _, path := range golden {
		text, err := os.ReadFile(path)
		if err != nil {
			t.Fatal(err)
		}
		lines = append(lines, strings.Split(string(text), "\n")...)
	}
	return lines
}

// each calls test for each line of these kinds, with the words after the kind.
func each(t *testing.T, test func(t *testing.T, kind string, words []string), kinds ...string) {
	t.Helper()
	count := 0
	for _, line := range goldenLines(t) {
		words := strings.Fields(line)
		if len(words) == 0 || strings.HasPrefix(line, "#") || !contains(kinds, words[0]) {
			continue
		}
		count++
		t.Run(strconv.Itoa(count), func(t *testing.T) {
			test(t, words[0], words[1:])
			if t.Failed() {
				t.Log(line)
			}
		})
	}
	if count == 0 {
		t.Fatalf("no line of kind %v", kinds)
	}
}

func contains(words []string, wanted string) bool {
	for _, word := range words {
		if word == wanted {
			return true
		}
	}
	return false
}

func number(t *testing.T, word string) uint64 {
	t.Helper()
	value, err := strconv.ParseUint(word, 10, 64)
	if err != nil {
		t.Fatal(err)
	}
	return value
}

func unhex(t *testing.T, word string) []byte {
	t.Helper()
	data, err := hex.DecodeString(word)
	if err != nil {
		t.Fatal(err)
	}
	return data
}

// label reads the words CLUSTER SENDER CLIENT NUMBER.
func label(t *testing.T, words []string) Label {
	t.Helper()
	return Label{number(t, words[0]), uint16(number(t, words[2])), number(t, words[3])}
}

// opOf reads the words of an op.
func opOf(t *testing.T, words []string) Op {
	t.Helper()
	op := Op{Word: Word(words[0])}
	switch op.Word {
	case Join:
		op.Node, op.Port = uint32(number(t, words[1])), uint16(number(t, words[2]))
	case Leave:
		op.Node = uint32(number(t, words[1]))
	case Raise:
	default:
		op.Name = words[1]
		if op.hasFence() {
			op.Fence = number(t, words[2])
		}
	}
	return op
}

func TestEachKindOfLineIsKnown(t *testing.T) {
	known := strings.Fields(
		"request answer elsewhere passed dropped client-key sealed opened closed watch notice unread")
	for _, line := range goldenLines(t) {
		if words := strings.Fields(line); len(words) > 0 && !strings.HasPrefix(line, "#") && !contains(known, words[0]) {
			t.Errorf("no test reads %q", line)
		}
	}
}

func TestEachRequestHasItsBytes(t *testing.T) {
	each(t, func(t *testing.T, _ string, words []string) {
		op := opOf(t, words[5:])
		if err := op.Valid(); err != nil {
			t.Error(err)
		}
		if got := hex.EncodeToString(label(t, words[1:]).Request(op)); got != words[0] {
			t.Errorf("got %s", got)
		}
		if got := op.String(); got != strings.Join(words[5:], " ") {
			t.Errorf("spelled %q", got)
		}
	}, "request")
}

// spelled has the fields of a reply, as golden.txt has them.
func spelled(reply Reply) (kind, fields string) {
	switch reply.Kind {
	case KindElsewhere:
		return "elsewhere", strconv.FormatUint(uint64(reply.Node), 10) + " " + strconv.Itoa(int(reply.Port))
	case KindPassed:
		return "passed", strconv.FormatUint(reply.Last, 10)
	}
	return "answer", reply.Answer.String()
}

func TestEachReplyIsRead(t *testing.T) {
	each(t, func(t *testing.T, kind string, words []string) {
		reply, isOne := label(t, words[1:]).Reply(unhex(t, words[0]))
		gotKind, got := spelled(reply)
		if !isOne || gotKind != kind || got != strings.Join(words[5:], " ") {
			t.Errorf("got %v %s %s", isOne, gotKind, got)
		}
	}, "answer", "elsewhere", "passed")
}

func TestEachReplyIsDroppedIfItIsCutOrLengthened(t *testing.T) {
	each(t, func(t *testing.T, _ string, words []string) {
		data, label := unhex(t, words[0]), label(t, words[1:])
		for length := range data {
			if _, isOne := label.Reply(data[:length]); isOne {
				t.Errorf("read when cut to %d bytes", length)
			}
		}
		if _, isOne := label.Reply(append(data, 0)); isOne {
			t.Error("read with a byte more")
		}
	}, "answer", "elsewhere", "passed")
}

func TestAllElseIsDropped(t *testing.T) {
	each(t, func(t *testing.T, _ string, words []string) {
		if reply, isOne := (Label{5, 7, 1}).Reply(unhex(t, words[0])); isOne {
			t.Errorf("read %+v", reply)
		}
	}, "dropped")
}

func keysOf(t *testing.T, text string) Keys {
	t.Helper()
	keys, err := ParseKeys(text)
	if err != nil {
		t.Fatal(err)
	}
	return keys
}

func TestEachClientHasItsKey(t *testing.T) {
	each(t, func(t *testing.T, _ string, words []string) {
		mac := hmac.New(sha256.New, unhex(t, words[2]))
		mac.Write([]byte("locks v1 client"))
		mac.Write(binary.BigEndian.AppendUint16(nil, uint16(number(t, words[1]))))
		if got := hex.EncodeToString(mac.Sum(nil)); got != words[0] {
			t.Errorf("got %s", got)
		}
	}, "client-key")
}

func TestEachRequestHasItsFrame(t *testing.T) {
	each(t, func(t *testing.T, _ string, words []string) {
		seals := Seals{number(t, words[1]), uint16(number(t, words[2])), keysOf(t, words[3])}
		if got := hex.EncodeToString(seals.Seal(unhex(t, words[4]))); got != words[0] {
			t.Errorf("got %s", got)
		}
	}, "sealed")
}

func TestEachReplyOpensUnderOneKeyOrTheOther(t *testing.T) {
	other := strings.Repeat("33", 32)
	each(t, func(t *testing.T, _ string, words []string) {
		for _, text := range []string{words[3], other + "\n" + words[3], words[3] + "\n" + other} {
			seals := Seals{number(t, words[1]), uint16(number(t, words[2])), keysOf(t, text)}
			if got, isOpen := seals.Open(unhex(t, words[0])); !isOpen || !bytes.Equal(got, unhex(t, words[4])) {
				t.Errorf("got %v %x", isOpen, got)
			}
		}
	}, "opened")
}

func TestNothingElseIsOpened(t *testing.T) {
	var key string
	each(t, func(_ *testing.T, _ string, words []string) {
		if words[1] == "7" {
			key = words[0]
		}
	}, "client-key")
	seals := Seals{5, 7, keysOf(t, key)}
	each(t, func(t *testing.T, _ string, words []string) {
		if got, isOpen := seals.Open(unhex(t, words[0])); isOpen {
			t.Errorf("opened %x", got)
		}
	}, "closed")
}

func TestWithoutAKeyAllIsAsItIs(t *testing.T) {
	seals := Seals{Cluster: 5, Client: 7}
	if got, isOpen := seals.Open([]byte("y")); string(seals.Seal([]byte("x"))) != "x" || !isOpen || string(got) != "y" {
		t.Error("changed")
	}
}
