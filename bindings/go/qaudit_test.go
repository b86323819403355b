package qaudit

import (
	"os"
	"path/filepath"
	"strings"
	"sync"
	"testing"
)

func TestEachReportIsThatOfTheCorpus(t *testing.T) {
	traces, _ := filepath.Glob("../../conformance/traces/*.trace")
	if len(traces) == 0 {
		t.Fatal("there are no traces")
	}
	for _, trace := range traces {
		bytes, _ := os.ReadFile(trace)
		report, _ := os.ReadFile(strings.TrimSuffix(trace, "trace") + "report")
		for _, piece := range []int{1, 7, 4096} {
			a, err := New(nil)
			if err != nil {
				t.Fatal(err)
			}
			progress := Open
			for rest := bytes; len(rest) > 0 && progress == Open; {
				n := piece
				if n > len(rest) {
					n = len(rest)
				}
				progress, err = a.Feed(rest[:n])
				if err != nil {
					t.Fatal(err)
				}
				rest = rest[n:]
			}
			if _, err := a.Finish(); err != nil || a.Report() != string(report) {
				t.Errorf("%s by %d: %q", trace, piece, a.Report())
			}
			a.Close()
		}
	}
}

func TestEachReasonIsThatOfTheCorpus(t *testing.T) {
	reasons, _ := filepath.Glob("../../conformance/traces/*.why")
	if len(reasons) == 0 {
		t.Fatal("there are no reasons")
	}
	for _, reason := range reasons {
		trace := strings.TrimSuffix(reason, "why") + "trace"
		bytes, _ := os.ReadFile(trace)
		why, _ := os.ReadFile(reason)
		wanted := strings.Replace(string(why), filepath.Base(trace), "-", 1)
		a, err := NewRecorded(nil)
		if err != nil {
			t.Fatal(err)
		}
		a.Feed(bytes)
		_, err = a.Finish()
		isWanted := a.Why() == wanted && a.Around(0) == wanted
		if err != nil || !isWanted || !strings.HasPrefix(a.Around(3), wanted) {
			t.Errorf("%s: %q", trace, a.Why())
		}
		a.Close()
	}
}

func TestAnEventIsItsLine(t *testing.T) {
	a, err := NewRecorded(&Header{Role: Server, MaxDatagramSize: 1200})
	if err != nil {
		t.Fatal(err)
	}
	a.Timer(5, ProbeTimer, App)
	lines := strings.Split(a.Why(), "\n")
	timer := `  2 | {"event":"timer","kind":"pto","space":"app","time":5}`
	if !strings.HasPrefix(lines[0], "-:2: refused V11 timer-not-set") || lines[1] != timer {
		t.Errorf("%q", lines)
	}
}

func TestWhatWasAllowed(t *testing.T) {
	header := Header{Role: Server, MaxDatagramSize: 1200, ReportSlackUs: 10}
	a, err := NewRecorded(&header)
	if err != nil {
		t.Fatal(err)
	}
	for time, rtt := range []uint64{333007, 333002} {
		rtt := rtt
		a.Metrics(uint64(time), &Metrics{SmoothedRTT: &rtt})
	}
	allowed := a.Allowed()
	if len(allowed) != 1 || *allowed[0].Limit != 10 {
		t.Fatalf("%v", allowed)
	}
	allowed[0].Limit = nil
	if allowed[0] != (Allowance{16, "metric", "smoothed_rtt", "report_slack_us", 2, 2, 3, 7, nil}) {
		t.Errorf("%v", allowed)
	}
	other, err := New(&header)
	if err != nil || other.Why() != "" || other.Around(3) != "" || other.Allowed() != nil {
		t.Errorf("%v %q", err, other.Why())
	}
}

func TestAFullWindow(t *testing.T) {
	a, err := New(&Header{Role: Server, MaxDatagramSize: 1200})
	if err != nil {
		t.Fatal(err)
	}
	for number := uint64(0); number < 11; number++ {
		packet := Packet{
			Time: number, Number: number, Size: 1200, Space: App, Eliciting: true, InFlight: true,
		}
		if _, err := a.Sent(&packet); err != nil {
			t.Fatal(err)
		}
	}
	verdict, known := a.Verdict()
	if !known || verdict.Kind != Refused || verdict.Line != 12 || verdict.Name != "past-window" {
		t.Errorf("%v", verdict)
	}
}

func TestEventsOfEachKind(t *testing.T) {
	a, err := New(&Header{Role: Client, MaxDatagramSize: 1200})
	if err != nil {
		t.Fatal(err)
	}
	rtt := uint64(100000)
	a.Sent(&Packet{Size: 1200, Eliciting: true, InFlight: true})
	a.Ack(100000, Initial, []Range{{0, 0}}, 0, false)
	a.Keys(100000)
	a.Discard(100001, Initial)
	a.Confirmed(100002)
	a.Discard(100003, Handshake)
	if progress, err := a.Metrics(100004, &Metrics{LatestRTT: &rtt}); progress != Open || err != nil {
		t.Errorf("%v %v", progress, err)
	}
	if verdict, err := a.Finish(); err != nil || verdict.Kind != Accepted || verdict.Events != 7 {
		t.Errorf("%v %v", verdict, err)
	}
}

func TestWhatIsNotTaken(t *testing.T) {
	a, err := New(&Header{Role: Server, MaxDatagramSize: 1200})
	if err != nil {
		t.Fatal(err)
	}
	if _, err := a.Lost(0, App, nil); err != ErrRange {
		t.Error(err)
	}
	a.Feed([]byte("{"))
	if _, err := a.Keys(0); err != ErrInsideLine {
		t.Error(err)
	}
	a.Close()
	if _, err := a.Keys(0); err != ErrClosed {
		t.Error(err)
	}
}

func TestGoroutinesShareAnAuditor(t *testing.T) {
	a, err := New(&Header{Role: Server, MaxDatagramSize: 1200})
	if err != nil {
		t.Fatal(err)
	}
	defer a.Close()
	var all sync.WaitGroup
	for i := 0; i < 8; i++ {
		all.Add(1)
		go func() {
			defer all.Done()
			for n := 0; n < 1000; n++ {
				if progress, err := a.Metrics(0, &Metrics{}); progress != Open || err != nil {
					t.Errorf("%v %v", progress, err)
				}
				a.Report()
				a.FirstLine()
				a.Verdict()
			}
		}()
	}
	all.Wait()
	if verdict, err := a.Finish(); err != nil || verdict.Kind != Accepted || verdict.Events != 8000 {
		t.Errorf("%v %v", verdict, err)
	}
}
