package numbers

import (
	"errors"
	"io/fs"
	"os"
	"path/filepath"
	"strings"
	"syscall"
	"testing"
)

func file(t *testing.T, text string) string {
	t.Helper()
	path := filepath.Join(t.TempDir(), "number")
	if err := os.WriteFile(path, []byte(text), 0o600); err != nil {
		t.Fatal(err)
	}
	return path
}

func text(t *testing.T, path string) string {
	t.Helper()
	text, err := os.ReadFile(path)
	if err != nil {
		t.Fatal(err)
	}
	return string(text)
}

func opened(t *testing.T, path string, first uint64) *Numbers {
	t.Helper()
	numbers, err := Open(path, first)
	if err != nil {
		t.Fatal(err)
	}
	t.Cleanup(func() { numbers.Close() })
	return numbers
}

func take(t *testing.T, numbers *Numbers, isFreeing bool, wanted uint64) {
	t.Helper()
	if number, err := numbers.Take(isFreeing); err != nil || number != wanted {
		t.Errorf("got %d, %v, wanted %d", number, err, wanted)
	}
}

func TestNumbersRise(t *testing.T) {
	numbers := opened(t, "", 5)
	take(t, numbers, false, 5)
	take(t, numbers, true, 6)
	if err := numbers.SkipTo(9); err != nil {
		t.Error(err)
	}
	take(t, numbers, false, 9)
	if err := numbers.SkipTo(3); err != nil {
		t.Error(err)
	}
	take(t, numbers, false, 10)
}

func TestATextIsANumberAndANewline(t *testing.T) {
	for text, wanted := range map[string]uint64{"41\n": 41, "281470681743360\n": Max} {
		if number, isOne := parsed([]byte(text)); !isOne || number != wanted {
			t.Errorf("%q: got %d", text, number)
		}
	}
	for _, text := range []string{
		"", "41", "\n", "0\n", "+41\n", "-41\n", " 41\n", "41 \n", "41\n\n", "41\n42\n", "41\r\n", "٤١\n",
		"99999999999999999999\n", "281470681743361\n",
	} {
		path := file(t, text)
		_, err := Open(path, 50)
		var state *StateError
		if !errors.As(err, &state) || state.Path != path || !strings.Contains(err.Error(), "remove it") {
			t.Errorf("%q: got %v", text, err)
		}
	}
}

func TestAMissingFileWantsAFirstNumber(t *testing.T) {
	path := filepath.Join(t.TempDir(), "number")
	if _, err := Open(path, 0); !errors.Is(err, fs.ErrNotExist) || !strings.Contains(err.Error(), "Milliseconds()") {
		t.Errorf("got %v", err)
	}
	take(t, opened(t, path, 7), false, 7)
	if got := text(t, path); got != "1006\n" {
		t.Errorf("keeps %q", got)
	}
}

func TestNumbersGoOnAfterARestart(t *testing.T) {
	path := file(t, "41\n")
	numbers := opened(t, path, 0)
	take(t, numbers, false, 42)
	if got := text(t, path); got != "1041\n" {
		t.Errorf("keeps %q", got)
	}
	if err := numbers.Close(); err != nil {
		t.Error(err)
	}
	if got := text(t, path); got != "42\n" {
		t.Errorf("keeps %q", got)
	}
	take(t, opened(t, path, 40), false, 43)
}

func TestALockEndsThoughItsDescriptorWasCopied(t *testing.T) {
	path := file(t, "41\n")
	numbers := opened(t, path, 0)
	copied, err := syscall.Dup(int(numbers.state.lock.Fd())) // as a process has that is being started
	if err != nil {
		t.Fatal(err)
	}
	defer syscall.Close(copied)
	if err := numbers.Close(); err != nil {
		t.Error(err)
	}
	take(t, opened(t, path, 0), false, 42)
}

func TestASecondClientIsRefusedByEachPath(t *testing.T) {
	path := file(t, "41\n")
	opened(t, path, 0)
	link := filepath.Join(t.TempDir(), "link")
	if err := os.Symlink(path, link); err != nil {
		t.Fatal(err)
	}
	for _, it := range []string{path, link} {
		if _, err := Open(it, 0); !errors.Is(err, ErrInUse) || !strings.Contains(err.Error(), path) {
			t.Errorf("%s: got %v", it, err)
		}
	}
}

func TestAHardLinkIsRefused(t *testing.T) {
	path := file(t, "41\n")
	if err := os.Link(path, path+"2"); err != nil {
		t.Fatal(err)
	}
	if _, err := Open(path, 0); err == nil || !strings.Contains(err.Error(), "hard link") {
		t.Errorf("got %v", err)
	}
}

func TestALinkToAMissingFileMakesThatFile(t *testing.T) {
	folder := t.TempDir()
	if err := os.Symlink("number", filepath.Join(folder, "link")); err != nil {
		t.Fatal(err)
	}
	take(t, opened(t, filepath.Join(folder, "link"), 3), false, 3)
	if got := text(t, filepath.Join(folder, "number")); got != "1002\n" {
		t.Errorf("keeps %q", got)
	}
}

func TestANumberOfAnotherProgramIsNotOverwritten(t *testing.T) {
	path := file(t, "41\n")
	numbers := opened(t, path, 0)
	if err := os.WriteFile(path, []byte("999999\n"), 0o600); err != nil {
		t.Fatal(err)
	}
	if _, err := numbers.Take(false); err == nil || !strings.Contains(err.Error(), "another program") {
		t.Errorf("got %v", err)
	}
	if got := text(t, path); got != "999999\n" {
		t.Errorf("keeps %q", got)
	}
}

func TestOnlyAReleaseTakesTheLastNumbersWhereNoneCanBeKept(t *testing.T) {
	path := file(t, "41\n")
	numbers := opened(t, path, 0)
	take(t, numbers, false, 42)
	if err := os.Mkdir(path+".new", 0o700); err != nil { // so that no write succeeds
		t.Fatal(err)
	}
	for wanted := uint64(43); wanted <= 1041-spare; wanted++ {
		take(t, numbers, false, wanted)
	}
	var state *StateError
	if _, err := numbers.Take(false); !errors.As(err, &state) {
		t.Errorf("got %v", err)
	}
	for wanted := uint64(1041 - spare + 1); wanted <= 1041; wanted++ {
		take(t, numbers, true, wanted)
	}
	if _, err := numbers.Take(true); !errors.As(err, &state) {
		t.Errorf("got %v", err)
	}
}

func TestNumbersEnd(t *testing.T) {
	numbers := opened(t, "", Max)
	take(t, numbers, true, Max)
	if _, err := numbers.Take(true); !errors.Is(err, ErrSpent) {
		t.Errorf("got %v", err)
	}
	for _, first := range []uint64{0, Max + 1} {
		if _, err := Open("", first); err == nil {
			t.Errorf("taken: %d", first)
		}
		if numbers.SkipTo(first) == nil {
			t.Errorf("skipped to %d", first)
		}
	}
}
