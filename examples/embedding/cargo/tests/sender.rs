//! A test of the sender, which fails at its first violation of RFC 9002, with the reason.

use std::fs::File;
use std::io::Write;
use std::path::PathBuf;

use qaudit::{Auditor, Progress, Verdict};
use sender::{Hook, Sender, SIZE};

/// An audit, and the trace of what it judged.
struct Audit {
    auditor: Auditor,
    path: PathBuf,
    trace: File,
}

impl Audit {
    fn new(name: &str) -> Self {
        let path = PathBuf::from(env!("CARGO_TARGET_TMPDIR")).join(format!("{name}.trace"));
        let trace = File::create(&path).expect("a file for the trace");
        let mut audit = Self {
            auditor: Auditor::recorded_without_header().expect("memory"),
            path,
            trace,
        };
        audit.line(&format!(
            r#"{{"event":"header","version":1,"role":"server","max_datagram_size":{SIZE}}}"#
        ));
        audit
    }

    /// Judges a line of the trace, and keeps it.
    fn line(&mut self, text: &str) {
        writeln!(self.trace, "{text}").expect("the trace is written");
        let progress = self.auditor.feed(format!("{text}\n").as_bytes());
        assert!(progress == Ok(Progress::Open), "{}", self.why());
    }

    /// Losses that were not declared show only at the end.
    fn finish(&mut self) {
        let verdict = self.auditor.finish();
        assert!(
            matches!(verdict, Ok(Verdict::Accepted { .. })),
            "{}",
            self.why()
        );
    }

    fn why(&mut self) -> String {
        let reason = self.auditor.around(3);
        format!("{reason}the trace is {}", self.path.display())
    }
}

impl Hook for Audit {
    fn on_packet_sent(&mut self, time: u64, number: u64) {
        self.line(&format!(
            r#"{{"event":"sent","time":{time},"space":"app","number":{number},"size":{SIZE},"eliciting":true,"in_flight":true}}"#
        ));
    }

    fn on_ack_received(&mut self, time: u64, first: u64, last: u64) {
        self.line(&format!(
            r#"{{"event":"ack","time":{time},"space":"app","ranges":[[{first},{last}]]}}"#
        ));
    }
}

#[test]
fn transfer() {
    let mut sender = Sender::new(Audit::new("transfer"));
    sender.send_all();
    sender.receive(100_000);
    sender.send_all();
    sender.hook.finish();
}
