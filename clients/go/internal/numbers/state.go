package numbers

import (
	"errors"
	"fmt"
	"io"
	"io/fs"
	"os"
	"path/filepath"
	"strconv"
	"syscall"
)

// begin is the remedy where the number is lost.
const begin = "begin with a first number above all that this client used, as Milliseconds()"

// ErrInUse says that another client has the state file open, in this process or another one.
var ErrInUse = errors.New("another client uses it; give each client a number and a file of its own")

// StateError says that a state file cannot be used. Its text names the path and the remedy.
type StateError struct {
	Path  string // where a symbolic link was named, the file that it leads to
	Cause error
}

// Error describes the failure and its remedy.
func (e *StateError) Error() string {
	return fmt.Sprintf("state file %s: %v", e.Path, e.Cause)
}

// Unwrap returns what is wrong with the file.
func (e *StateError) Unwrap() error {
	return e.Cause
}

// A state is a file that keeps a number, and the locked file beside it.
type state struct {
	path string
	// No number in the file is greater, unless another program has written it.
	greatest uint64
	lock     *os.File
}

// openState locks a state file, and returns the number in it; 0 if there is no file and it may be new.
func openState(path string, mayBeNew bool) (*state, uint64, error) {
	real, err := resolved(path)
	if err != nil {
		return nil, 0, &StateError{path, missing(err, mayBeNew)}
	}
	// Nothing is written beside a file that is refused.
	if _, err := kept(real, mayBeNew); err != nil {
		return nil, 0, &StateError{real, err}
	}
	lock, err := locked(real)
	if err != nil {
		return nil, 0, &StateError{real, err}
	}
	number, err := kept(real, mayBeNew)
	if err != nil {
		unlock(lock)
		return nil, 0, &StateError{real, err}
	}
	return &state{path: real, greatest: number, lock: lock}, number, nil
}

// resolved returns the one path of a file that may have several, also of a file that is missing.
func resolved(path string) (string, error) {
	real, err := filepath.EvalSymlinks(path)
	if err == nil {
		return filepath.Abs(real)
	}
	if !errors.Is(err, fs.ErrNotExist) {
		return "", err
	}
	if target, err := os.Readlink(path); err == nil {
		if !filepath.IsAbs(target) {
			target = filepath.Join(filepath.Dir(path), target)
		}
		return resolved(target)
	}
	folder, err := filepath.EvalSymlinks(filepath.Dir(path))
	if err != nil {
		return "", err
	}
	return filepath.Abs(filepath.Join(folder, filepath.Base(path)))
}

// missing adds the remedy to the error of a file that is not there.
func missing(err error, mayBeNew bool) error {
	if errors.Is(err, fs.ErrNotExist) && !mayBeNew {
		return fmt.Errorf("%w; if this client is new or the file was lost, %s", fs.ErrNotExist, begin)
	}
	return fmt.Errorf("%w; see that its folder is there, may be written and has room", err)
}

// kept returns the number that a file keeps; 0 if there is none and it may be new.
func kept(path string, mayBeNew bool) (uint64, error) {
	about, err := os.Stat(path)
	if errors.Is(err, fs.ErrNotExist) && mayBeNew {
		return 0, nil
	}
	if err != nil {
		return 0, missing(err, mayBeNew)
	}
	if !about.Mode().IsRegular() {
		return 0, errors.New("it is not a regular file; name another one")
	}
	if system, isKnown := about.Sys().(*syscall.Stat_t); isKnown && system.Nlink > 1 {
		return 0, errors.New("it has a second name (a hard link); remove that, and use one")
	}
	text, err := front(path)
	if err != nil {
		return 0, missing(err, mayBeNew)
	}
	number, isOne := parsed(text)
	if !isOne {
		return 0, fmt.Errorf("it keeps no number but %.32q; remove it, and %s", text, begin)
	}
	return number, nil
}

// front returns the first bytes of a file, more than a number has.
func front(path string) ([]byte, error) {
	file, err := os.Open(path)
	if err != nil {
		return nil, err
	}
	defer file.Close()
	return io.ReadAll(io.LimitReader(file, 64))
}

// parsed returns the number of a line. A file that was cut has lost the end of its line.
func parsed(text []byte) (uint64, bool) {
	if len(text) < 2 || text[len(text)-1] != '\n' {
		return 0, false
	}
	digits := text[:len(text)-1]
	for _, digit := range digits {
		if digit < '0' || digit > '9' {
			return 0, false
		}
	}
	number, err := strconv.ParseUint(string(digits), 10, 64)
	return number, err == nil && 1 <= number && number <= Max
}

// locked opens and locks the file beside a state file.
func locked(path string) (*os.File, error) {
	lock, err := os.OpenFile(path+".lock", os.O_WRONLY|os.O_CREATE, 0o666)
	if err != nil {
		return nil, missing(err, true)
	}
	err = syscall.Flock(int(lock.Fd()), syscall.LOCK_EX|syscall.LOCK_NB)
	if err == nil {
		return lock, nil
	}
	lock.Close()
	if errors.Is(err, syscall.EWOULDBLOCK) {
		return nil, ErrInUse
	}
	return nil, missing(err, true)
}

// keep writes a number, unless another program has written a greater one meanwhile.
func (s *state) keep(number uint64) error {
	found, err := kept(s.path, true)
	if err == nil && found > s.greatest {
		err = errors.New("another program has written it; end that one, and open it again")
	}
	if err != nil {
		return &StateError{s.path, err}
	}
	if number > s.greatest {
		s.greatest = number
	}
	if err := write(s.path, number); err != nil {
		return &StateError{s.path, missing(err, true)}
	}
	return nil
}

// write puts a new file in place of the old one, so that one of the two survives a power cut.
func write(path string, number uint64) error {
	file, err := os.Create(path + ".new")
	if err != nil {
		return err
	}
	_, err = fmt.Fprintln(file, number)
	if err == nil {
		err = file.Sync()
	}
	if closed := file.Close(); err == nil {
		err = closed
	}
	if err != nil {
		return err
	}
	if err := os.Rename(path+".new", path); err != nil {
		return err
	}
	return syncFolder(filepath.Dir(path))
}

// syncFolder makes a new name last.
func syncFolder(path string) error {
	folder, err := os.Open(path)
	if err != nil {
		return err
	}
	defer folder.Close()
	return folder.Sync()
}

// unlock unlocks and closes a lock file. Closing it is not enough while a process that is being started has a copy of
// its descriptor.
func unlock(lock *os.File) {
	syscall.Flock(int(lock.Fd()), syscall.LOCK_UN)
	lock.Close()
}

// close lets another client use the file.
func (s *state) close() {
	unlock(s.lock)
}
