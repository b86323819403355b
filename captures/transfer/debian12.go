package main

import (
	"bufio"
	"context"
	"crypto/tls"
	"io"
	"os"
	"path/filepath"
	"time"

	quic "github.com/lucas-clemente/quic-go"
	"github.com/lucas-clemente/quic-go/logging"
	"github.com/lucas-clemente/quic-go/qlog"
)

type bufferedFile struct {
	*bufio.Writer
	io.Closer
}

func (file bufferedFile) Close() error {
	file.Flush()
	return file.Closer.Close()
}

// The library of 0.29 asks for a file for each connection.
func log(side logging.Perspective, _ []byte) io.WriteCloser {
	name := "server.sqlog"
	if side == logging.PerspectiveClient {
		name = "client.sqlog"
	}
	file, err := os.Create(filepath.Join(os.Getenv("QLOGDIR"), name))
	check(err)
	return bufferedFile{bufio.NewWriter(file), file}
}

func config() *quic.Config {
	return &quic.Config{
		Tracer: qlog.NewTracer(log), DisablePathMTUDiscovery: true,
		MaxIdleTimeout: idle, HandshakeIdleTimeout: handshakeIdle,
	}
}

// accepted waits for one connection; what is returned gives the streams that its peer opens.
func accepted(address string, security *tls.Config) (streams, func()) {
	listener, err := quic.ListenAddr(address, security, config())
	check(err)
	connection, err := listener.Accept(context.Background())
	check(err)
	accept := func() (io.ReadWriteCloser, error) {
		return connection.AcceptStream(context.Background())
	}
	end := func() {
		time.Sleep(untilLogged)
		listener.Close()
	}
	return accept, end
}

// dialled connects; what is returned opens streams.
func dialled(address string, security *tls.Config) (streams, func()) {
	connection, err := quic.DialAddr(address, security, config())
	check(err)
	open := func() (io.ReadWriteCloser, error) {
		return connection.OpenStreamSync(context.Background())
	}
	return open, func() { connection.CloseWithError(0, "") }
}
