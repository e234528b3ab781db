package wire

import (
	"fmt"
	"os"
	"path/filepath"
	"strings"
	"testing"
)

func TestWhatIsOutOfItsRangeIsRefused(t *testing.T) {
	for _, op := range []Op{
		{Word: Acquire},
		{Word: Acquire, Name: "DB"},
		{Word: Acquire, Name: "é"},
		{Word: Acquire, Name: strings.Repeat("x", 33)},
		{Word: Release, Name: "db"},
		{Word: Check, Name: "db", Fence: MaxCount + 1},
		{Word: Leave},
		{Word: Leave, Node: MaxNode + 1},
		{Word: Join, Node: 1},
	} {
		if op.Valid() == nil {
			t.Errorf("valid: %q", op)
		}
	}
}

func TestAKeyFileHasOneKeyOrTwo(t *testing.T) {
	key := strings.Repeat("1f", 32)
	if _, err := ParseKeys(fmt.Sprintf("# old\n%s\n\n%s\n", key, strings.ToUpper(key))); err != nil {
		t.Error(err)
	}
	three := strings.Repeat(key+"\n", 3)
	for _, wrong := range []string{"", "#\n", three, key[1:], key + " ", key + "ff", strings.Repeat("é", 32)} {
		if _, err := ParseKeys(wrong); err == nil {
			t.Errorf("taken: %q", wrong)
		} else if strings.Contains(err.Error(), "1f1f") {
			t.Errorf("shows a key: %v", err)
		}
	}
}

func TestAKeyFileIsForItsOwnerAlone(t *testing.T) {
	path := filepath.Join(t.TempDir(), "key")
	if err := os.WriteFile(path, []byte(strings.Repeat("1f", 32)+"\n"), 0o644); err != nil {
		t.Fatal(err)
	}
	if _, err := ReadKeys(path); err == nil || !strings.Contains(err.Error(), path) {
		t.Errorf("got %v", err)
	}
	if err := os.Chmod(path, 0o600); err != nil {
		t.Fatal(err)
	}
	keys, err := ReadKeys(path)
	if err != nil || strings.Contains(fmt.Sprintf("%v %+v %#v", keys, keys, keys), "31") {
		t.Errorf("got %v, %v", keys, err)
	}
	if _, err := ReadKeys(path + "x"); err == nil {
		t.Error("read a file that is missing")
	}
}
