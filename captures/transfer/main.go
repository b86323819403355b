// A transfer over quic-go, with a qlog in the folder that QLOGDIR names.
//
//	transfer server ADDRESS CERT KEY            serves one connection and ends
//	transfer client ADDRESS down|up BYTES PARTS
//
// A transfer of several parts is as many requests in a row. What the versions of the library do not
// have in common is in debian12.go and today.go.
package main

import (
	"crypto/tls"
	"encoding/binary"
	"fmt"
	"io"
	"os"
	"strconv"
	"time"
)

// A request is a way, `d` or `u`, and how many bytes are moved that way.
const requestSize = 9

const (
	idle          = 20 * time.Second
	handshakeIdle = 15 * time.Second
	betweenParts  = 30 * time.Millisecond
	untilLogged   = 300 * time.Millisecond
)

// A connection's way to its next stream: one that it opens, or one that its peer has opened.
type streams func() (io.ReadWriteCloser, error)

// Bytes without an end. What they are does not matter, so they are left as they are.
type zeros struct{}

func (zeros) Read(bytes []byte) (int, error) {
	return len(bytes), nil
}

func check(err error) {
	if err != nil {
		fmt.Fprintln(os.Stderr, err)
		os.Exit(1)
	}
}

func settings(certificates ...tls.Certificate) *tls.Config {
	return &tls.Config{
		Certificates: certificates, InsecureSkipVerify: true, NextProtos: []string{"x"},
	}
}

// answer reads a request and does what it asks.
func answer(stream io.ReadWriteCloser) {
	defer stream.Close()
	var request [requestSize]byte
	if _, err := io.ReadFull(stream, request[:]); err != nil {
		return
	}
	if request[0] == 'd' {
		io.CopyN(stream, zeros{}, int64(binary.BigEndian.Uint64(request[1:])))
		return
	}
	io.Copy(io.Discard, stream)
	stream.Write([]byte("ok"))
}

// ask sends a request and reads its answer.
func ask(stream io.ReadWriteCloser, way byte, size int64) error {
	var request [requestSize]byte
	request[0] = way
	binary.BigEndian.PutUint64(request[1:], uint64(size))
	if _, err := stream.Write(request[:]); err != nil {
		return err
	}
	if way == 'u' {
		if _, err := io.CopyN(stream, zeros{}, size); err != nil {
			return err
		}
	}
	stream.Close()
	_, err := io.Copy(io.Discard, stream)
	return err
}

func serve(address, certFile, keyFile string) {
	certificate, err := tls.LoadX509KeyPair(certFile, keyFile)
	check(err)
	accept, end := accepted(address, settings(certificate))
	for {
		stream, err := accept()
		if err != nil {
			break
		}
		go answer(stream)
	}
	end()
}

func transfer(address string, way byte, size int64, parts int) {
	open, end := dialled(address, settings())
	for part := 0; part < parts; part++ {
		stream, err := open()
		check(err)
		check(ask(stream, way, size/int64(parts)))
		if parts > 1 {
			time.Sleep(betweenParts)
		}
	}
	end()
}

func main() {
	switch {
	case len(os.Args) == 5 && os.Args[1] == "server":
		serve(os.Args[2], os.Args[3], os.Args[4])
	case len(os.Args) == 6 && os.Args[1] == "client":
		size, err := strconv.ParseInt(os.Args[4], 10, 64)
		check(err)
		parts, err := strconv.Atoi(os.Args[5])
		check(err)
		transfer(os.Args[2], os.Args[3][0], size, parts)
	default:
		fmt.Fprintln(os.Stderr, "transfer server ADDRESS CERT KEY | "+
			"transfer client ADDRESS down|up BYTES PARTS")
		os.Exit(64)
	}
	time.Sleep(untilLogged)
}
