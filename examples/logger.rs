//! Example logger for a sender in Rust: a module that needs no crate. Its `main` prints a short
//! trace. Times and durations are in whole microseconds from the start of the connection.

use std::fmt::Write;

/// Keeps the lines of a connection until it ends, since the header may be known late.
pub struct Logger {
    pub role: &'static str,
    pub max_datagram_size: u64,
    pub max_ack_delay: u64,
    lines: String,
}

fn ranges(numbers: &[(u64, u64)]) -> String {
    let all: Vec<String> = numbers
        .iter()
        .map(|it| format!("[{},{}]", it.0, it.1))
        .collect();
    all.join(",")
}

impl Logger {
    pub fn new(role: &'static str, max_datagram_size: u64) -> Self {
        Self {
            role,
            max_datagram_size,
            max_ack_delay: 25_000,
            lines: String::new(),
        }
    }
    fn event(&mut self, event: &str, time: u64, keys: String) {
        let _ = writeln!(self.lines, r#"{{"event":"{event}","time":{time}{keys}}}"#);
    }
    /// OnPacketSent (A.5). `leave` is `window`, or `probe` after a probe timeout.
    #[allow(clippy::too_many_arguments)]
    pub fn sent(
        &mut self,
        time: u64,
        space: &str,
        number: u64,
        size: u64,
        eliciting: bool,
        in_flight: bool,
        leave: &str,
    ) {
        let what = format!(r#","space":"{space}","number":{number},"size":{size}"#);
        let marks =
            format!(r#","eliciting":{eliciting},"in_flight":{in_flight},"leave":"{leave}""#);
        self.event("sent", time, what + &marks);
    }
    /// OnAckReceived (A.7), before anything is done about it.
    pub fn ack(&mut self, time: u64, space: &str, acked: &[(u64, u64)], delay: u64, limited: bool) {
        let named = ranges(acked);
        self.event(
            "ack",
            time,
            format!(r#","space":"{space}","ranges":[{named}],"delay":{delay},"limited":{limited}"#),
        );
    }
    /// OnPacketsLost (B.8), right behind the `ack` or the `timer` that showed the loss.
    pub fn lost(&mut self, time: u64, space: &str, lost: &[u64]) {
        let each: Vec<(u64, u64)> = lost.iter().map(|it| (*it, *it)).collect();
        self.event(
            "lost",
            time,
            format!(r#","space":"{space}","ranges":[{}]"#, ranges(&each)),
        );
    }
    /// OnLossDetectionTimeout (A.9): kind `loss` or `pto`.
    pub fn timer(&mut self, time: u64, kind: &str, space: &str) {
        self.event(
            "timer",
            time,
            format!(r#","kind":"{kind}","space":"{space}""#),
        );
    }
    /// OnPacketNumberSpaceDiscarded (A.11): `initial` or `handshake`.
    pub fn discard(&mut self, time: u64, space: &str) {
        self.event("discard", time, format!(r#","space":"{space}""#));
    }
    /// `keys` where Handshake keys come, `confirmed` where the handshake is confirmed.
    pub fn handshake(&mut self, time: u64, event: &str) {
        self.event(event, time, String::new());
    }
    /// Your own values by the names of the format, such as `window`, which are compared.
    pub fn metrics(&mut self, time: u64, values: &[(&str, u64)]) {
        let all: Vec<String> = values
            .iter()
            .map(|it| format!(r#","{}":{}"#, it.0, it.1))
            .collect();
        self.event("metrics", time, all.concat());
    }
    /// The trace, at the end of the connection.
    pub fn trace(&self) -> String {
        format!(
            r#"{{"event":"header","version":1,"role":"{}","max_datagram_size":{},"max_ack_delay":{}}}"#,
            self.role, self.max_datagram_size, self.max_ack_delay
        ) + "\n"
            + &self.lines
    }
}

fn main() {
    let mut logger = Logger::new("server", 1200);
    for packet in 0..4 {
        logger.sent(packet * 100, "app", packet, 1200, true, true, "window");
    }
    logger.ack(100_000, "app", &[(3, 3)], 0, false);
    logger.lost(100_000, "app", &[0]);
    logger.metrics(
        100_000,
        &[
            ("window", 6000),
            ("bytes_in_flight", 2400),
            ("latest_rtt", 99_700),
        ],
    );
    print!("{}", logger.trace());
}
