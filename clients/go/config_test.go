package locks

import (
	"errors"
	"net/netip"
	"os"
	"path/filepath"
	"strings"
	"testing"
)

func TestWhatCannotBeAskedIsRefused(t *testing.T) {
	v6 := netip.MustParseAddrPort("[::1]:7001")
	for name, change := range map[string]func(*Config){
		"client 0":       func(c *Config) { c.Client = 0 },
		"client 257":     func(c *Config) { c.Client = 257 },
		"nodes (none)":   func(c *Config) { c.Nodes = nil },
		"first number 0": func(c *Config) { c.First = 0 },
		"127.0.0.1:7001 and [::1]:7001: must be of one address family": func(c *Config) { c.Nodes = append(c.Nodes, v6) },
		"127.0.0.1:7001 and ::1": func(c *Config) { c.Hosts = map[uint32]netip.Addr{1: v6.Addr()} },
		"node 127.0.0.1:0":       func(c *Config) { c.Nodes = Loopback(0) },
	} {
		config := Config{Cluster: 5, Client: 7, First: 1, Nodes: Loopback(7001)}
		change(&config)
		client, err := Open(config)
		var invalid *Invalid
		if !errors.As(err, &invalid) || !strings.Contains(err.Error(), name) {
			t.Errorf("%s: got %v, %v", name, client, err)
		}
	}
	client := clientOf(t, nil, fakeNode(t))
	for _, name := range []string{"", "DB", strings.Repeat("x", 33)} {
		var invalid *Invalid
		if _, err := client.Lock(within(t), name); !errors.As(err, &invalid) {
			t.Errorf("%q: got %v", name, err)
		}
	}
}

func TestHostsAreReadByLines(t *testing.T) {
	path := filepath.Join(t.TempDir(), "hosts")
	for text, isGood := range map[string]bool{
		"1 10.0.0.1\n\n# more\n3 10.0.0.3\n": true, "3 fd00::3\n": true, "": true,
		"1 host\n": false, "2 10.0.0.1\n1 10.0.0.2\n": false, "1 10.0.0.1\n2 fd00::2\n": false, "01 10.0.0.1\n": false,
		"1  10.0.0.1\n": false, "1 fe80::1%lo\n": false, "2147483649 10.0.0.1\n": false,
	} {
		if err := os.WriteFile(path, []byte(text), 0o600); err != nil {
			t.Fatal(err)
		}
		if hosts, err := ReadHosts(path); (err == nil) != isGood {
			t.Errorf("%q: got %v, %v", text, hosts, err)
		}
	}
}
