package locks

import (
	"fmt"
	"net/netip"
	"os"
	"strconv"
	"strings"

	"locks/internal/wire"
)

// Loopback returns the nodes at these ports of 127.0.0.1.
func Loopback(ports ...uint16) []netip.AddrPort {
	var nodes []netip.AddrPort
	for _, port := range ports {
		nodes = append(nodes, netip.AddrPortFrom(loopback, port))
	}
	return nodes
}

// ReadHosts reads a file of lines NODE ADDRESS, which says where nodes live: nodes rise, and all addresses are of one
// family.
func ReadHosts(path string) (map[uint32]netip.Addr, error) {
	text, err := os.ReadFile(path)
	if err != nil {
		return nil, fmt.Errorf("hosts file: %w", err)
	}
	hosts := map[uint32]netip.Addr{}
	last, family := uint32(0), 0
	for at, line := range strings.Split(string(text), "\n") {
		if line == "" || strings.HasPrefix(line, "#") {
			continue
		}
		node, address, isOne := hostOf(line)
		if !isOne || node <= last || family != 0 && family != address.BitLen() {
			return nil, fmt.Errorf("hosts file %s: line %d is not NODE ADDRESS, rising and of one family", path, at+1)
		}
		last, family, hosts[node] = node, address.BitLen(), address
	}
	return hosts, nil
}

func hostOf(line string) (uint32, netip.Addr, bool) {
	words := strings.Split(line, " ")
	if len(words) != 2 || strings.HasPrefix(words[0], "0") || strings.HasPrefix(words[0], "+") {
		return 0, netip.Addr{}, false
	}
	node, err := strconv.ParseUint(words[0], 10, 32)
	if err != nil || node > wire.MaxNode {
		return 0, netip.Addr{}, false
	}
	address, err := netip.ParseAddr(words[1])
	return uint32(node), address, err == nil && address.Zone() == ""
}

// checkedNodes returns the nodes if a client can ask them all, by one socket.
func checkedNodes(nodes []netip.AddrPort, hosts map[uint32]netip.Addr) ([]netip.AddrPort, error) {
	if len(nodes) == 0 {
		return nil, &Invalid{What: "nodes", Value: "(none)", Range: "at least one"}
	}
	var checked []netip.AddrPort
	for _, node := range nodes {
		it := netip.AddrPortFrom(node.Addr().Unmap(), node.Port())
		if !it.IsValid() || it.Port() == 0 || it.Addr().Zone() != "" {
			return nil, &Invalid{What: "node", Value: node.String(), Range: "an address without a zone, and a port"}
		}
		if it.Addr().BitLen() != nodes[0].Addr().Unmap().BitLen() {
			return nil, mixed(nodes[0].String(), node.String())
		}
		checked = append(checked, it)
	}
	for _, host := range hosts {
		if host.Unmap().BitLen() != checked[0].Addr().BitLen() {
			return nil, mixed(checked[0].String(), host.String())
		}
	}
	return checked, nil
}

func mixed(one, other string) error {
	return &Invalid{What: "nodes", Value: one + " and " + other, Range: "of one address family, IPv4 or IPv6"}
}
