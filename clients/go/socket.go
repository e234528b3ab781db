package locks

import (
	"errors"
	"net"
	"net/netip"
	"time"

	"locks/internal/core"
)

const (
	// longest is how many bytes are read of a datagram: more than any reply has, and than a sealed notice.
	longest = 120
	// kept is how many datagrams are kept until a call reads them. Further ones are lost.
	kept = 64
	// pause follows a read that failed.
	pause = 10 * time.Millisecond
)

// A socket sends and receives the datagrams of one client.
type socket struct {
	connection *net.UDPConn
	came       chan core.Datagram
	isNotice   func(core.Datagram) bool // takes what no request waits for
}

// listen opens a socket that can reach the nodes: on loopback if they all are at 127.0.0.1. A goroutine calls isNotice
// with each datagram, and keeps those for which it reports false until a call reads them.
func listen(nodes []netip.AddrPort, isNotice func(core.Datagram) bool) (*socket, error) {
	network := "udp4"
	if nodes[0].Addr().Is6() {
		network = "udp6"
	}
	connection, err := net.ListenUDP(network, net.UDPAddrFromAddrPort(netip.AddrPortFrom(ownAddress(nodes), 0)))
	if err != nil {
		return nil, err
	}
	made := &socket{connection, make(chan core.Datagram, kept), isNotice}
	go made.read()
	return made, nil
}

var loopback = netip.AddrFrom4([4]byte{127, 0, 0, 1})

func ownAddress(nodes []netip.AddrPort) netip.Addr {
	if nodes[0].Addr().Is6() {
		return netip.IPv6Unspecified()
	}
	for _, node := range nodes {
		if node.Addr() != loopback {
			return netip.IPv4Unspecified()
		}
	}
	return loopback
}

// read keeps what comes until the socket is closed.
func (s *socket) read() {
	buffer := make([]byte, longest)
	for {
		length, from, err := s.connection.ReadFromUDPAddrPort(buffer)
		if errors.Is(err, net.ErrClosed) {
			return
		}
		if err != nil {
			time.Sleep(pause)
			continue
		}
		payload := append([]byte(nil), buffer[:length]...)
		came := core.Datagram{Payload: payload, Address: netip.AddrPortFrom(from.Addr().Unmap(), from.Port())}
		if s.isNotice(came) {
			continue
		}
		select {
		case s.came <- came:
		default:
		}
	}
}

// send sends each datagram. One that cannot be sent counts as lost.
func (s *socket) send(datagrams []core.Datagram) {
	for _, it := range datagrams {
		s.connection.WriteToUDPAddrPort(it.Payload, it.Address)
	}
}

func (s *socket) close() {
	s.connection.Close()
}
