package main

import (
	"context"
	"crypto/tls"
	"io"
	"time"

	quic "github.com/quic-go/quic-go"
	"github.com/quic-go/quic-go/qlog"
)

// Since 0.50 the library reads QLOGDIR itself, and names the log.
func config() *quic.Config {
	return &quic.Config{
		Tracer: qlog.DefaultConnectionTracer, DisablePathMTUDiscovery: true,
		MaxIdleTimeout: idle, HandshakeIdleTimeout: handshakeIdle,
	}
}

// accepted waits for one connection; what is returned gives the streams that its peer opens.
func accepted(address string, security *tls.Config) (streams, func()) {
	listener, err := quic.ListenAddr(address, security, config())
	check(err)
	connection, err := listener.Accept(context.Background())
	check(err)
	accept := func() (io.ReadWriteCloser, error) {
		return connection.AcceptStream(context.Background())
	}
	end := func() {
		time.Sleep(untilLogged)
		listener.Close()
	}
	return accept, end
}

// dialled connects; what is returned opens streams.
func dialled(address string, security *tls.Config) (streams, func()) {
	connection, err := quic.DialAddr(context.Background(), address, security, config())
	check(err)
	open := func() (io.ReadWriteCloser, error) {
		return connection.OpenStreamSync(context.Background())
	}
	return open, func() { connection.CloseWithError(0, "") }
}
