package sender

import (
	"fmt"
	"os"
	"strings"
	"testing"

	"qaudit"
)

// audit is an audit inside a test, which fails at the first violation of RFC 9002 with the reason,
// and the trace of what was judged.
type audit struct {
	*testing.T
	auditor *qaudit.Auditor
	trace   *os.File
}

func newAudit(t *testing.T) *audit {
	auditor, err := qaudit.NewRecorded(nil)
	if err != nil {
		t.Fatal(err)
	}
	t.Cleanup(auditor.Close)
	trace, err := os.CreateTemp("", strings.ReplaceAll(t.Name(), "/", "-")+"-*.trace")
	if err != nil {
		t.Fatal(err)
	}
	t.Cleanup(func() {
		trace.Close()
		if !t.Failed() {
			os.Remove(trace.Name())
		}
	})
	a := &audit{t, auditor, trace}
	a.line(`{"event":"header","version":1,"role":"server","max_datagram_size":%d}`, size)
	return a
}

// line judges a line of the trace, and keeps it.
func (a *audit) line(format string, values ...any) {
	a.Helper()
	text := fmt.Sprintf(format+"\n", values...)
	if _, err := a.trace.WriteString(text); err != nil {
		a.Fatal(err)
	}
	if progress, err := a.auditor.Feed([]byte(text)); err != nil || progress != qaudit.Open {
		a.fail(err)
	}
}

// finish ends the audit. Losses that were not declared show only here.
func (a *audit) finish() {
	a.Helper()
	if verdict, err := a.auditor.Finish(); err != nil || verdict.Kind != qaudit.Accepted {
		a.fail(err)
	}
}

func (a *audit) fail(err error) {
	a.Helper()
	if err != nil {
		a.Fatal(err)
	}
	a.Fatalf("%sthe trace is %s", a.auditor.Around(3), a.trace.Name())
}

func (a *audit) onPacketSent(time, number uint64) {
	a.line(`{"event":"sent","time":%d,"space":"app","number":%d,"size":%d,"eliciting":true,"in_flight":true}`,
		time, number, size)
}

func (a *audit) onAckReceived(time, first, last uint64) {
	a.line(`{"event":"ack","time":%d,"space":"app","ranges":[[%d,%d]]}`, time, first, last)
}

func TestTransfer(t *testing.T) {
	a := newAudit(t)
	s := sender{hook: a}
	s.sendAll()
	s.receive(100000)
	s.sendAll()
	a.finish()
}
