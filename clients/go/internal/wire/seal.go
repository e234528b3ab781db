package wire

import (
	"crypto/hmac"
	"crypto/sha256"
	"encoding/binary"
	"encoding/hex"
	"fmt"
	"os"
	"strings"
)

const (
	frameHead = 4
	tagBytes  = sha256.Size
)

var (
	requestHead, replyHead = []byte("LS\x01\x02"), []byte("LS\x01\x03")
	// A client knows its cluster by the number alone.
	noGenesis = make([]byte, sha256.Size)
)

const (
	requestLabel = "locks v1 request"
	replyLabel   = "locks v1 replies"
)

// Keys are the key of one client, or two while it changes: the first seals, each of them opens. They print as a count.
type Keys struct {
	keys [][]byte
}

// String hides the keys.
func (k Keys) String() string {
	return fmt.Sprintf("%d keys", len(k.keys))
}

// GoString hides the keys.
func (k Keys) GoString() string {
	return k.String()
}

// IsEmpty reports whether there is no key, so that nothing is sealed.
func (k Keys) IsEmpty() bool {
	return len(k.keys) == 0
}

// ParseKeys reads the text of a key file: one line of 64 hex digits, or two. Empty lines and those that begin with `#`
// are skipped.
func ParseKeys(text string) (Keys, error) {
	var keys Keys
	for _, line := range strings.Split(text, "\n") {
		if line == "" || strings.HasPrefix(line, "#") {
			continue
		}
		key, err := hex.DecodeString(line)
		if err != nil || len(key) != sha256.Size {
			return Keys{}, invalidKeys(text)
		}
		keys.keys = append(keys.keys, key)
	}
	if len(keys.keys) < 1 || len(keys.keys) > 2 {
		return Keys{}, invalidKeys(text)
	}
	return keys, nil
}

// invalidKeys does not show the text, which may be a key with a letter too many.
func invalidKeys(text string) error {
	return &Invalid{What: "key", Value: fmt.Sprintf("of %d bytes", len(text)), Range: "one or two lines of 64 hex digits"}
}

// ReadKeys reads a key file, which only its owner may have access to.
func ReadKeys(path string) (Keys, error) {
	file, err := os.Open(path)
	if err != nil {
		return Keys{}, fmt.Errorf("key file: %w", err)
	}
	defer file.Close()
	about, err := file.Stat()
	if err != nil {
		return Keys{}, fmt.Errorf("key file: %w", err)
	}
	if about.Mode().Perm()&0o077 != 0 {
		return Keys{}, fmt.Errorf("key file %s: readable by users other than its owner; set its mode to 600", path)
	}
	text, err := os.ReadFile(path)
	if err != nil {
		return Keys{}, fmt.Errorf("key file: %w", err)
	}
	keys, err := ParseKeys(string(text))
	if err != nil {
		return Keys{}, fmt.Errorf("key file %s: %w", path, err)
	}
	return keys, nil
}

// Seals say which client asks, in which cluster, and under which keys.
type Seals struct {
	Cluster uint64
	Client  uint16
	Keys    Keys
}

// Seal returns what is sent of a request: its frame, or the datagram itself without a key.
func (s Seals) Seal(datagram []byte) []byte {
	if s.Keys.IsEmpty() {
		return datagram
	}
	return s.frame(requestHead, requestLabel, s.Keys.keys[0], datagram)
}

// Open returns the datagram that a node has sealed for this client. It reports false for all else that comes to a
// client with a key. Without a key it returns what came.
func (s Seals) Open(payload []byte) ([]byte, bool) {
	if s.Keys.IsEmpty() {
		return payload, true
	}
	if len(payload) < frameHead+tagBytes {
		return nil, false
	}
	datagram := payload[frameHead+tagBytes:]
	for _, key := range s.Keys.keys {
		if hmac.Equal(s.frame(replyHead, replyLabel, key, datagram), payload) {
			return datagram, true
		}
	}
	return nil, false
}

func (s Seals) frame(head []byte, label string, key, datagram []byte) []byte {
	mac := hmac.New(sha256.New, key)
	mac.Write([]byte(label))
	mac.Write(binary.BigEndian.AppendUint64(nil, s.Cluster))
	mac.Write(noGenesis)
	mac.Write(binary.BigEndian.AppendUint32(nil, uint32(s.Client)))
	mac.Write(datagram)
	return append(mac.Sum(append([]byte(nil), head...)), datagram...)
}
