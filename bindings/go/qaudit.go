// Package qaudit is an auditor of QUIC loss recovery (RFC 9002), fed while a sender runs.
//
// The library, libqaudit.a, is built by `make lib` at the top of the repository, into bin/; a
// release has it in lib/. If it is elsewhere, CGO_LDFLAGS=-L names its folder.
package qaudit

/*
#cgo CFLAGS: -I${SRCDIR}/../../include
#cgo LDFLAGS: -L${SRCDIR}/../../bin -L${SRCDIR}/../../lib -l:libqaudit.a
#include "qaudit.h"
*/
import "C"

import (
	"errors"
	"runtime"
	"strings"
	"sync"
	"unsafe"
)

// A Space is a packet number space.
type Space uint32

// The packet number spaces.
const (
	Initial Space = iota
	Handshake
	App
)

// A Role says which end of the connection the sender is.
type Role uint32

// The roles.
const (
	Client Role = iota
	Server
)

// A Leave says by whose leave an in-flight packet goes out.
type Leave uint32

// The leaves.
const (
	Window Leave = iota
	Probe
	Recovery
)

// A TimerKind says what the loss detection timer fired for.
type TimerKind uint32

// The kinds of timers.
const (
	LossTimer TimerKind = iota
	ProbeTimer
)

// Progress says how far an audit is.
type Progress uint32

// How far an audit is: what follows can change the verdict, it is known whatever follows, or
// nothing follows.
const (
	Open Progress = iota
	Fixed
	Finished
)

// Why nothing was taken.
var (
	ErrMemory     = errors.New("qaudit: out of memory")
	ErrClosed     = errors.New("qaudit: the auditor is closed")
	ErrRange      = errors.New("qaudit: a value is outside its range")
	ErrNotTaken   = errors.New("qaudit: no memory for the ranges")
	ErrInsideLine = errors.New("qaudit: the bytes that were fed end inside a line")
)

// A Header says what holds of the whole connection. A value of nil is the default of the trace
// format.
type Header struct {
	Role                Role
	Nanoseconds         bool // the unit of times; else microseconds
	MaxDatagramSize     uint64
	MaxAckDelay         *uint64
	InitialRTT          *uint64
	InitialWindow       *uint64
	TimerLateUs         *uint64
	TimerEarlyUs        uint64
	ReportSlackUs       uint64
	ReportSlackBytes    uint64
	PacketThreshold     *uint64
	ReportedWindow      bool // packets are judged by the reported window; else by NewReno's
	MayBeLost           bool // packets that lie behind may be lost, and need not
	RefreshMinRTT       bool
	WindowOvershoot     bool
	SampleElicitingOnly bool
	CountsPackets       bool // the packet threshold counts packets, and not their numbers
	ResetRTT            bool // persistent congestion resets the estimate of the RTT
	LatestRTTLessDelay  bool // the latest RTT is a sample less the peer's delay
	RecoveryByOrder     bool // what was sent in recovery goes by lines, not times

	// kTimeThreshold in eighths of the RTT, 9 to 32; else 9.
	TimeThresholdEighths *uint64
}

// A Packet is one that was sent.
type Packet struct {
	Time, Number, Size  uint64
	Space               Space
	Leave               Leave
	Eliciting, InFlight bool
}

// A Range is the packet numbers from Least to Greatest, both among them.
type Range struct{ Least, Greatest uint64 }

// Metrics are what a sender reports of itself, each value where it reports it.
type Metrics struct {
	Window, SSThresh, BytesInFlight, LatestRTT, MinRTT, SmoothedRTT, RTTVar *uint64
}

// A Kind is that of a verdict.
type Kind uint32

// The kinds of verdicts.
const (
	Accepted Kind = iota + 1
	Refused
	Unreadable
)

// A Verdict says what is said of what was handed in: where it is not accepted, the line, and the
// number and name of the rule or the fault, with the key or the reported value that it is about.
type Verdict struct {
	Kind          Kind
	Line          uint64
	Code          uint32
	Name, Subject string
	Events        uint64
}

// An Auditor is an audit that is handed bytes and events. Goroutines may share it: a call waits for
// another. It is not copied.
type Auditor struct {
	// The library has one call at a time.
	lock sync.Mutex
	q    C.qaudit
}

// An Allowance is what the header of an accepted trace allowed past a rule: its number and name, at
// V16 the reported value, and the key that allows it; how many events went past the rule, on which
// lines, and how far at most; and how far the header allows it, nil where it sets no limit.
type Allowance struct {
	Rule                         uint32
	Name, Subject, Key           string
	Count, First, Last, Greatest uint64
	Limit                        *uint64
}

// New opens an audit of what has this header; of which nothing is known yet where it is nil.
func New(header *Header) (*Auditor, error) {
	return opened(header, func(q *C.qaudit) C.qaudit_status_t { return C.qaudit_open(q) })
}

// NewRecorded opens an audit as New does, which keeps the text of what it is handed, for Why,
// Around and Allowed: about 100 to 150 bytes per event.
func NewRecorded(header *Header) (*Auditor, error) {
	return opened(header, func(q *C.qaudit) C.qaudit_status_t { return C.qaudit_open_recorded(q) })
}

func opened(header *Header, open func(q *C.qaudit) C.qaudit_status_t) (*Auditor, error) {
	a := &Auditor{}
	if open(&a.q) != C.QAUDIT_OPEN {
		return nil, ErrMemory
	}
	runtime.SetFinalizer(a, (*Auditor).Close)
	if header != nil {
		if _, err := a.Header(header); err != nil {
			a.Close()
			return nil, err
		}
	}
	return a, nil
}

// Close gives its memory back. A closed one takes nothing.
func (a *Auditor) Close() {
	a.lock.Lock()
	defer a.lock.Unlock()
	C.qaudit_close(&a.q)
}

// take makes a call which nobody else makes meanwhile, and says what came of it.
func (a *Auditor) take(call func() C.qaudit_status_t) (Progress, error) {
	a.lock.Lock()
	defer a.lock.Unlock()
	return told(call())
}

func told(status C.qaudit_status_t) (Progress, error) {
	switch status {
	case C.QAUDIT_OPEN, C.QAUDIT_FIXED, C.QAUDIT_FINISHED:
		return Progress(status), nil
	case C.QAUDIT_CLOSED:
		return Open, ErrClosed
	case C.QAUDIT_OUT_OF_RANGE:
		return Open, ErrRange
	case C.QAUDIT_NOT_TAKEN:
		return Open, ErrNotTaken
	case C.QAUDIT_INSIDE_LINE:
		return Open, ErrInsideLine
	}
	return Open, ErrMemory
}

// Feed takes the next bytes of a trace, which may be any part of it.
func (a *Auditor) Feed(bytes []byte) (Progress, error) {
	var none [1]byte
	at := &none[0]
	if len(bytes) > 0 {
		at = &bytes[0]
	}
	return a.take(func() C.qaudit_status_t {
		return C.qaudit_feed(&a.q, (*C.uint8_t)(unsafe.Pointer(at)), C.size_t(len(bytes)))
	})
}

// Write feeds bytes, so that an Auditor is an io.Writer.
func (a *Auditor) Write(bytes []byte) (int, error) {
	if _, err := a.Feed(bytes); err != nil {
		return 0, err
	}
	return len(bytes), nil
}

func given(value *uint64) (C.uint64_t, C.bool) {
	if value == nil {
		return 0, false
	}
	return C.uint64_t(*value), true
}

func flag(is bool) C.uint32_t {
	if is {
		return 1
	}
	return 0
}

// Header takes a header.
func (a *Auditor) Header(header *Header) (Progress, error) {
	h := C.qaudit_trace_header{
		max_datagram_size:     C.uint64_t(header.MaxDatagramSize),
		timer_early_us:        C.uint64_t(header.TimerEarlyUs),
		report_slack_us:       C.uint64_t(header.ReportSlackUs),
		report_slack_bytes:    C.uint64_t(header.ReportSlackBytes),
		role:                  C.uint32_t(header.Role),
		unit:                  flag(header.Nanoseconds),
		window:                flag(header.ReportedWindow),
		loss_by_number:        flag(header.MayBeLost),
		refresh_min_rtt:       C.bool(header.RefreshMinRTT),
		window_overshoot:      C.bool(header.WindowOvershoot),
		sample_eliciting_only: C.bool(header.SampleElicitingOnly),
		threshold_counts:      flag(header.CountsPackets),
		reset_rtt:             C.bool(header.ResetRTT),
		latest_rtt_less_delay: C.bool(header.LatestRTTLessDelay),
		recovery_by_order:     C.bool(header.RecoveryByOrder),
	}
	h.max_ack_delay, h.has_max_ack_delay = given(header.MaxAckDelay)
	h.initial_rtt, h.has_initial_rtt = given(header.InitialRTT)
	h.initial_window, h.has_initial_window = given(header.InitialWindow)
	h.timer_late_us, h.has_timer_late_us = given(header.TimerLateUs)
	h.packet_threshold, h.has_packet_threshold = given(header.PacketThreshold)
	h.time_threshold_eighths, h.has_time_threshold_eighths = given(header.TimeThresholdEighths)
	return a.take(func() C.qaudit_status_t { return C.qaudit_header(&a.q, &h) })
}

// Sent takes a packet that was sent.
func (a *Auditor) Sent(packet *Packet) (Progress, error) {
	p := C.qaudit_packet{
		time:      C.uint64_t(packet.Time),
		number:    C.uint64_t(packet.Number),
		size:      C.uint64_t(packet.Size),
		space:     C.uint32_t(packet.Space),
		leave:     C.uint32_t(packet.Leave),
		eliciting: C.bool(packet.Eliciting),
		in_flight: C.bool(packet.InFlight),
	}
	return a.take(func() C.qaudit_status_t { return C.qaudit_sent(&a.q, &p) })
}

// ranged gives C the ranges; one that is not counted stands behind them, so that there is a
// pointer.
func ranged(ranges []Range) []C.qaudit_range {
	all := make([]C.qaudit_range, len(ranges)+1)
	for i, r := range ranges {
		all[i] = C.qaudit_range{least: C.uint64_t(r.Least), greatest: C.uint64_t(r.Greatest)}
	}
	return all
}

// Ack takes an acknowledgment that came, of ranges in any order, with the delay as the sender used
// it.
func (a *Auditor) Ack(
	time uint64, space Space, ranges []Range, delay uint64, appLimited bool,
) (Progress, error) {
	ack := C.qaudit_acknowledgment{
		time:        C.uint64_t(time),
		delay:       C.uint64_t(delay),
		space:       C.uint32_t(space),
		app_limited: C.bool(appLimited),
	}
	all := ranged(ranges)
	return a.take(func() C.qaudit_status_t {
		return C.qaudit_ack(&a.q, &ack, &all[0], C.size_t(len(ranges)))
	})
}

// Lost takes packets that the sender declared lost.
func (a *Auditor) Lost(time uint64, space Space, ranges []Range) (Progress, error) {
	all := ranged(ranges)
	return a.take(func() C.qaudit_status_t {
		return C.qaudit_lost(&a.q, C.uint64_t(time), C.uint32_t(space), &all[0], C.size_t(len(ranges)))
	})
}

// Timer takes a timer that fired.
func (a *Auditor) Timer(time uint64, kind TimerKind, space Space) (Progress, error) {
	timer := C.qaudit_fired_timer{
		time:  C.uint64_t(time),
		kind:  C.uint32_t(kind),
		space: C.uint32_t(space),
	}
	return a.take(func() C.qaudit_status_t { return C.qaudit_timer(&a.q, &timer) })
}

// Discard takes that the keys of a space were discarded.
func (a *Auditor) Discard(time uint64, space Space) (Progress, error) {
	return a.take(func() C.qaudit_status_t {
		return C.qaudit_discard(&a.q, C.uint64_t(time), C.uint32_t(space))
	})
}

// Confirmed takes that the handshake was confirmed.
func (a *Auditor) Confirmed(time uint64) (Progress, error) {
	return a.take(func() C.qaudit_status_t { return C.qaudit_confirmed(&a.q, C.uint64_t(time)) })
}

// Keys takes that the keys of the Handshake space are there.
func (a *Auditor) Keys(time uint64) (Progress, error) {
	return a.take(func() C.qaudit_status_t { return C.qaudit_keys(&a.q, C.uint64_t(time)) })
}

// Metrics takes what the sender reports of itself.
func (a *Auditor) Metrics(time uint64, metrics *Metrics) (Progress, error) {
	m := C.qaudit_metrics_report{time: C.uint64_t(time)}
	m.window, m.has_window = given(metrics.Window)
	m.ssthresh, m.has_ssthresh = given(metrics.SSThresh)
	m.bytes_in_flight, m.has_bytes_in_flight = given(metrics.BytesInFlight)
	m.latest_rtt, m.has_latest_rtt = given(metrics.LatestRTT)
	m.min_rtt, m.has_min_rtt = given(metrics.MinRTT)
	m.smoothed_rtt, m.has_smoothed_rtt = given(metrics.SmoothedRTT)
	m.rttvar, m.has_rttvar = given(metrics.RTTVar)
	return a.take(func() C.qaudit_status_t { return C.qaudit_metrics(&a.q, &m) })
}

// Finish says that nothing follows, and returns the verdict.
func (a *Auditor) Finish() (Verdict, error) {
	if _, err := a.take(func() C.qaudit_status_t { return C.qaudit_finish(&a.q) }); err != nil {
		return Verdict{}, err
	}
	verdict, known := a.Verdict()
	if !known {
		return Verdict{}, ErrMemory
	}
	return verdict, nil
}

// Verdict returns the verdict, and whether it is known: once it is fixed, and after Finish.
func (a *Auditor) Verdict() (Verdict, bool) {
	var out C.qaudit_told
	a.lock.Lock()
	known := C.qaudit_verdict(&a.q, &out)
	a.lock.Unlock()
	if !known {
		return Verdict{}, false
	}
	verdict := Verdict{
		Kind:   Kind(out.kind),
		Line:   uint64(out.line),
		Code:   uint32(out.code),
		Events: uint64(out.totals.events),
	}
	switch verdict.Kind {
	case Refused:
		verdict.Name = text(func(at *C.uint8_t, room C.size_t) C.size_t {
			return C.qaudit_rule_name(out.code, at, room)
		})
	case Unreadable:
		verdict.Name = text(func(at *C.uint8_t, room C.size_t) C.size_t {
			return C.qaudit_fault_name(out.code, at, room)
		})
	}
	verdict.Subject = text(func(at *C.uint8_t, room C.size_t) C.size_t {
		return C.qaudit_key_name(out.subject, at, room)
	})
	return verdict, true
}

// Report returns the report, as `qaudit check` writes it; nothing where no verdict is known.
func (a *Auditor) Report() string {
	a.lock.Lock()
	defer a.lock.Unlock()
	return text(func(at *C.uint8_t, room C.size_t) C.size_t { return C.qaudit_report(&a.q, at, room) })
}

// FirstLine returns the first line of the report; nothing where no verdict is known.
func (a *Auditor) FirstLine() string {
	a.lock.Lock()
	defer a.lock.Unlock()
	return strings.TrimSpace(text(func(at *C.uint8_t, room C.size_t) C.size_t {
		return C.qaudit_first_line(&a.q, at, room)
	}))
}

// Why returns why it is refused, as `qaudit-why` writes it; nothing if it was not recorded.
func (a *Auditor) Why() string {
	a.lock.Lock()
	defer a.lock.Unlock()
	return text(func(at *C.uint8_t, room C.size_t) C.size_t { return C.qaudit_why(&a.q, at, room) })
}

// Around returns the same with the state of the model after each of the last rows lines before.
func (a *Auditor) Around(rows uint16) string {
	a.lock.Lock()
	defer a.lock.Unlock()
	return text(func(at *C.uint8_t, room C.size_t) C.size_t {
		return C.qaudit_around(&a.q, C.uint16_t(rows), at, room)
	})
}

// Allowed returns what the header allowed, if what was recorded is accepted; nothing if it allowed
// nothing.
func (a *Auditor) Allowed() []Allowance {
	var all [14]C.qaudit_allowance
	a.lock.Lock()
	count := C.qaudit_allowed(&a.q, &all[0], C.size_t(len(all)))
	a.lock.Unlock()
	var allowed []Allowance
	for _, it := range all[:count] {
		allowed = append(allowed, allowance(it))
	}
	return allowed
}

func allowance(it C.qaudit_allowance) Allowance {
	key := func(number C.uint32_t) string {
		return text(func(at *C.uint8_t, room C.size_t) C.size_t {
			return C.qaudit_key_name(number, at, room)
		})
	}
	name := text(func(at *C.uint8_t, room C.size_t) C.size_t {
		return C.qaudit_rule_name(it.rule, at, room)
	})
	allowed := Allowance{
		Rule:     uint32(it.rule),
		Name:     name,
		Subject:  key(it.subject),
		Key:      key(it.key),
		Count:    uint64(it.count),
		First:    uint64(it.first),
		Last:     uint64(it.last),
		Greatest: uint64(it.greatest),
	}
	if it.has_limit {
		limit := uint64(it.limit)
		allowed.Limit = &limit
	}
	return allowed
}

// text returns a text that is put into a buffer, again into a longer one if it has no room there.
func text(put func(at *C.uint8_t, room C.size_t) C.size_t) string {
	out := make([]byte, 4096)
	count := put((*C.uint8_t)(unsafe.Pointer(&out[0])), C.size_t(len(out)))
	if int(count) > len(out) {
		out = make([]byte, count)
		count = put((*C.uint8_t)(unsafe.Pointer(&out[0])), C.size_t(len(out)))
	}
	return string(out[:count])
}
