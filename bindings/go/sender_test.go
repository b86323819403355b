package qaudit

import (
	"errors"
	"strings"
	"testing"
)

// An example: an auditor hooked into a small sender, and a test that fails at the first departure.
// The sender knows its window and nothing else of loss recovery. It tells its hook what it does, in
// the lines where a real one would.

const (
	size   = 1200
	window = 12000
)

// hook is what a sender calls. It returns an error at the first call that departs from RFC 9002.
type hook struct{ auditor *Auditor }

func (h hook) check(progress Progress, err error) error {
	if err == nil && progress != Open {
		err = errors.New(h.auditor.Report())
	}
	return err
}

func (h hook) onPacketSent(time, number uint64) error {
	packet := Packet{
		Time: time, Number: number, Size: size, Space: App, Eliciting: true, InFlight: true,
	}
	return h.check(h.auditor.Sent(&packet))
}

func (h hook) onAckReceived(time, first, last uint64) error {
	return h.check(h.auditor.Ack(time, App, []Range{{first, last}}, 0, false))
}

// sender is a small sender, which sends as much as its window has room for.
type sender struct {
	hook          hook
	window        uint64
	time          uint64
	number        uint64
	firstInFlight uint64
}

func newSender(t *testing.T, window uint64) *sender {
	auditor, err := New(&Header{Role: Server, MaxDatagramSize: size})
	if err != nil {
		t.Fatal(err)
	}
	t.Cleanup(auditor.Close)
	return &sender{hook: hook{auditor}, window: window}
}

func (s *sender) sendAll() error {
	for (s.number+1-s.firstInFlight)*size <= s.window {
		if err := s.hook.onPacketSent(s.time, s.number); err != nil {
			return err
		}
		s.number++
	}
	return nil
}

func (s *sender) receive(time uint64) error {
	s.time = time
	err := s.hook.onAckReceived(time, s.firstInFlight, s.number-1)
	s.firstInFlight = s.number
	return err
}

func TestATransfer(t *testing.T) {
	s := newSender(t, window)
	for _, err := range []error{s.sendAll(), s.receive(100000), s.sendAll()} {
		if err != nil {
			t.Error(err)
		}
	}
}

func TestAPacketTooMany(t *testing.T) {
	err := newSender(t, window+size).sendAll()
	if err == nil || !strings.HasPrefix(err.Error(), "refused line 12 V7 past-window") {
		t.Error(err)
	}
}
