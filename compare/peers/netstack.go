// gVisor's netstack as an end of a connection: `netstack listen`, or `netstack open`, with the descriptors of lwip.c.
package main

import (
	"context"
	"io"
	"net"
	"os"
	"syscall"

	"gvisor.dev/gvisor/pkg/bufferv2"
	"gvisor.dev/gvisor/pkg/tcpip"
	"gvisor.dev/gvisor/pkg/tcpip/adapters/gonet"
	"gvisor.dev/gvisor/pkg/tcpip/header"
	"gvisor.dev/gvisor/pkg/tcpip/link/channel"
	"gvisor.dev/gvisor/pkg/tcpip/network/ipv4"
	"gvisor.dev/gvisor/pkg/tcpip/stack"
	"gvisor.dev/gvisor/pkg/tcpip/transport/tcp"
)

const first, second = tcpip.Address("\x0a\x4d\x00\x01"), tcpip.Address("\x0a\x4d\x00\x02")

func must(err error) {
	if err != nil {
		println(err.Error())
		os.Exit(4)
	}
}

func mustDo(err tcpip.Error) {
	if err != nil {
		println(err.String())
		os.Exit(5)
	}
}

func sendPackets(link *channel.Endpoint) {
	for {
		packet := link.ReadContext(context.Background())
		_, err := os.Stdin.Write(packet.ToView().AsSlice())
		packet.DecRef()
		must(err)
	}
}

func takePackets(link *channel.Endpoint) {
	var bytes [4096]byte
	for {
		count, err := os.Stdin.Read(bytes[:])
		if err == io.EOF {
			os.Exit(0)
		}
		must(err)
		payload := bufferv2.MakeWithData(append([]byte(nil), bytes[:count]...))
		packet := stack.NewPacketBuffer(stack.PacketBufferOptions{Payload: payload})
		link.InjectInbound(ipv4.ProtocolNumber, packet)
		packet.DecRef()
	}
}

// Returns what connects. It listens from now on, if it does.
func connector(all *stack.Stack, listens bool) func() (net.Conn, error) {
	peer := tcpip.FullAddress{NIC: 1, Addr: second, Port: 7000}
	if !listens {
		return func() (net.Conn, error) { return gonet.DialTCP(all, peer, ipv4.ProtocolNumber) }
	}
	listener, err := gonet.ListenTCP(all, peer, ipv4.ProtocolNumber)
	must(err)
	return listener.Accept
}

func main() {
	listens, here := os.Args[1] == "listen", first
	if listens {
		here = second
	}
	link := channel.New(1024, 1500, "")
	all := stack.New(stack.Options{
		NetworkProtocols:   []stack.NetworkProtocolFactory{ipv4.NewProtocol},
		TransportProtocols: []stack.TransportProtocolFactory{tcp.NewProtocol},
	})
	mustDo(all.CreateNIC(1, link))
	address := tcpip.ProtocolAddress{Protocol: ipv4.ProtocolNumber, AddressWithPrefix: here.WithPrefix()}
	mustDo(all.AddProtocolAddress(1, address, stack.AddressProperties{}))
	all.SetRouteTable([]tcpip.Route{{Destination: header.IPv4EmptySubnet, NIC: 1}})
	sack := tcpip.TCPSACKEnabled(true)
	mustDo(all.SetTransportProtocolOption(tcp.ProtocolNumber, &sack))
	must(syscall.SetsockoptInt(1, syscall.SOL_SOCKET, syscall.SO_SNDBUF, 4096))
	connect := connector(all, listens)
	go sendPackets(link)
	go takePackets(link)
	connection, err := connect()
	must(err)
	go func() {
		_, err := io.Copy(connection, os.Stdout)
		must(err)
		must(connection.(*gonet.TCPConn).CloseWrite())
	}()
	_, err = io.Copy(os.Stdout, connection)
	must(err)
	must(syscall.Shutdown(1, syscall.SHUT_WR))
	select {}
}
