// Package sender is a small sender. It calls a hook where loss recovery does something.
package sender

const (
	size   = 1200
	window = 12000 // bytes that the sender keeps in flight
)

type hook interface {
	onPacketSent(time, number uint64)
	onAckReceived(time, first, last uint64)
}

type sender struct {
	hook                        hook
	time, number, firstInFlight uint64
}

func (s *sender) sendAll() {
	for (s.number+1-s.firstInFlight)*size <= window {
		s.hook.onPacketSent(s.time, s.number)
		s.number++
	}
}

func (s *sender) receive(time uint64) {
	s.time = time
	s.hook.onAckReceived(time, s.firstInFlight, s.number-1)
	s.firstInFlight = s.number
}
