//! An auditor of QUIC loss recovery (RFC 9002), fed while a sender runs.
//!
//! A test hands in what its sender did, and fails at the first departure from the standard:
//!
//! ```
//! use qaudit::{Auditor, Header, Packet, Progress, Role, Space};
//!
//! let mut auditor = Auditor::new(&Header::new(Role::Server, 1200)).unwrap();
//! for number in 0..11 {
//!     let packet = Packet::new(number, Space::App, number, 1200);
//!     if auditor.sent(&packet).unwrap() == Progress::Fixed {
//!         break;
//!     }
//! }
//! // The eleventh packet goes past a window of ten.
//! assert_eq!(auditor.first_line(), "refused line 12 V7 past-window");
//! ```
#![warn(missing_docs)]

mod raw;

use std::fmt;
use std::mem::zeroed;
use std::ops::RangeInclusive;
use std::ptr::null_mut;

/// A packet number space.
#[derive(Clone, Copy, Debug, PartialEq, Eq)]
#[allow(missing_docs)]
pub enum Space {
    Initial = 0,
    Handshake = 1,
    App = 2,
}

/// Which end of the connection the sender is.
#[derive(Clone, Copy, Debug, PartialEq, Eq)]
#[allow(missing_docs)]
pub enum Role {
    Client = 0,
    Server = 1,
}

/// The unit of times.
#[derive(Clone, Copy, Debug, PartialEq, Eq)]
#[allow(missing_docs)]
pub enum Unit {
    Microseconds = 0,
    Nanoseconds = 1,
}

/// By whose congestion window packets are judged.
#[derive(Clone, Copy, Debug, PartialEq, Eq)]
pub enum Controller {
    /// That of NewReno.
    NewReno = 0,
    /// The one that the sender last reported.
    Reported = 1,
}

/// By whose leave an in-flight packet goes out.
#[derive(Clone, Copy, Debug, PartialEq, Eq)]
#[allow(missing_docs)]
pub enum Leave {
    Window = 0,
    Probe = 1,
    Recovery = 2,
}

/// What the loss detection timer fired for.
#[derive(Clone, Copy, Debug, PartialEq, Eq)]
#[allow(missing_docs)]
pub enum TimerKind {
    Loss = 0,
    Pto = 1,
}

/// What holds of the whole connection. A value of None is the default of the trace format.
#[derive(Clone, Debug)]
#[allow(missing_docs)]
pub struct Header {
    pub role: Role,
    pub unit: Unit,
    pub max_datagram_size: u64,
    pub max_ack_delay: Option<u64>,
    pub initial_rtt: Option<u64>,
    pub initial_window: Option<u64>,
    pub timer_late_us: Option<u64>,
    pub timer_early_us: u64,
    pub report_slack_us: u64,
    pub report_slack_bytes: u64,
    pub packet_threshold: Option<u64>,
    pub window: Controller,
    /// Packets that lie the packet threshold behind may be lost, and need not.
    pub may_be_lost: bool,
    pub refresh_min_rtt: bool,
    pub window_overshoot: bool,
    pub sample_eliciting_only: bool,
    /// The packet threshold counts packets, and not their numbers.
    pub counts_packets: bool,
    /// Persistent congestion resets the estimate of the RTT.
    pub reset_rtt: bool,
    /// The latest RTT is a sample less the peer's delay, but for the first.
    pub latest_rtt_less_delay: bool,
    /// `kTimeThreshold` in eighths of the RTT, 9 to 32; else 9.
    pub time_threshold_eighths: Option<u64>,
    /// The order of the lines, and not their times, says what was sent in recovery.
    pub recovery_by_order: bool,
}

impl Header {
    /// A header with defaults for all else.
    pub fn new(role: Role, max_datagram_size: u64) -> Header {
        Header {
            role,
            unit: Unit::Microseconds,
            max_datagram_size,
            max_ack_delay: None,
            initial_rtt: None,
            initial_window: None,
            timer_late_us: None,
            timer_early_us: 0,
            report_slack_us: 0,
            report_slack_bytes: 0,
            packet_threshold: None,
            window: Controller::NewReno,
            may_be_lost: false,
            refresh_min_rtt: false,
            window_overshoot: false,
            sample_eliciting_only: false,
            counts_packets: false,
            reset_rtt: false,
            latest_rtt_less_delay: false,
            time_threshold_eighths: None,
            recovery_by_order: false,
        }
    }
}

/// A packet that was sent.
#[derive(Clone, Debug)]
#[allow(missing_docs)]
pub struct Packet {
    pub time: u64,
    pub space: Space,
    pub number: u64,
    pub size: u64,
    pub eliciting: bool,
    pub in_flight: bool,
    pub leave: Leave,
}

impl Packet {
    /// An ack-eliciting packet by leave of the window.
    pub fn new(time: u64, space: Space, number: u64, size: u64) -> Packet {
        Packet {
            time,
            space,
            number,
            size,
            eliciting: true,
            in_flight: true,
            leave: Leave::Window,
        }
    }
}

/// What a sender reports of itself, each value where it reports it.
#[derive(Clone, Debug, Default)]
#[allow(missing_docs)]
pub struct Metrics {
    pub window: Option<u64>,
    pub ssthresh: Option<u64>,
    pub bytes_in_flight: Option<u64>,
    pub latest_rtt: Option<u64>,
    pub min_rtt: Option<u64>,
    pub smoothed_rtt: Option<u64>,
    pub rttvar: Option<u64>,
}

/// How far an audit is.
#[derive(Clone, Copy, Debug, PartialEq, Eq)]
pub enum Progress {
    /// What follows can change the verdict.
    Open,
    /// The verdict is known, whatever follows: something was not good.
    Fixed,
    /// The verdict is known: nothing follows.
    Finished,
}

/// Why nothing was taken.
#[derive(Clone, Copy, Debug, PartialEq, Eq)]
pub enum Error {
    /// Out of memory: there is no verdict, and never will be.
    OutOfMemory,
    /// A value is outside its range.
    OutOfRange,
    /// There was no memory for the ranges; the call may be tried again.
    NotTaken,
    /// The bytes that were fed end inside a line.
    InsideLine,
}

impl fmt::Display for Error {
    fn fmt(&self, f: &mut fmt::Formatter<'_>) -> fmt::Result {
        f.write_str(match self {
            Error::OutOfMemory => "out of memory",
            Error::OutOfRange => "a value is outside its range",
            Error::NotTaken => "no memory for the ranges",
            Error::InsideLine => "the bytes that were fed end inside a line",
        })
    }
}

impl std::error::Error for Error {}

/// The state of the machine after the good events.
#[derive(Clone, Debug, PartialEq, Eq)]
#[allow(missing_docs)]
pub struct Totals {
    pub events: u64,
    pub window: u64,
    pub ssthresh: Option<u64>,
    pub bytes_in_flight: u64,
    pub latest_rtt: u64,
    pub min_rtt: u64,
    pub smoothed_rtt: u64,
    pub rttvar: u64,
    pub pto_count: u64,
    pub owed: u64,
}

/// A rule or a fault: its number, its name, and the key or the value that it is about.
#[derive(Clone, Debug, PartialEq, Eq)]
#[allow(missing_docs)]
pub struct Cause {
    pub number: u32,
    pub name: String,
    pub subject: Option<String>,
}

/// What is said of what was handed in.
#[derive(Clone, Debug, PartialEq, Eq)]
#[allow(missing_docs)]
pub enum Verdict {
    Accepted {
        totals: Totals,
    },
    Refused {
        line: u64,
        rule: Cause,
        totals: Totals,
    },
    Unreadable {
        line: u64,
        fault: Cause,
        totals: Option<Totals>,
    },
}

/// What the header of an accepted trace allowed past a rule.
#[derive(Clone, Debug, PartialEq, Eq)]
pub struct Allowance {
    /// The rule, and at V16 the reported value.
    pub rule: Cause,
    /// The key of the header that allows it.
    pub key: String,
    /// How many events went past the rule.
    pub count: u64,
    /// The line of the first.
    pub first: u64,
    /// The line of the last.
    pub last: u64,
    /// How far one went past it at most, in bytes or in the unit of times.
    pub greatest: u64,
    /// How far the header allows it, in the same; `None` if it sets no limit.
    pub limit: Option<u64>,
}

/// An audit that is handed bytes and events.
///
/// It may go to another thread:
///
/// ```
/// fn goes<T: Send>() {}
/// goes::<qaudit::Auditor>();
/// ```
///
/// Threads that share one need a lock around it:
///
/// ```compile_fail,E0277
/// fn is_shared<T: Sync>() {}
/// is_shared::<qaudit::Auditor>();
/// ```
///
/// ```
/// fn is_shared<T: Sync>() {}
/// is_shared::<std::sync::Mutex<qaudit::Auditor>>();
/// ```
pub struct Auditor(raw::Qaudit);

// SAFETY: an open `qaudit` may go from thread to thread, and each call here has it alone.
unsafe impl Send for Auditor {}

impl Auditor {
    /// An audit of what has this header.
    pub fn new(header: &Header) -> Result<Auditor, Error> {
        let mut auditor = Auditor::without_header()?;
        auditor.header(header)?;
        Ok(auditor)
    }

    /// An audit of which nothing is known yet: the text of a trace is fed, or a header comes first.
    pub fn without_header() -> Result<Auditor, Error> {
        opened(raw::qaudit_open)
    }

    /// An audit of what has this header, which keeps the text of what it is handed, for
    /// [`why`](Auditor::why), [`around`](Auditor::around) and [`allowed`](Auditor::allowed): about
    /// 100 to 150 bytes per event.
    pub fn recorded(header: &Header) -> Result<Auditor, Error> {
        let mut auditor = Auditor::recorded_without_header()?;
        auditor.header(header)?;
        Ok(auditor)
    }

    /// The same of which nothing is known yet.
    pub fn recorded_without_header() -> Result<Auditor, Error> {
        opened(raw::qaudit_open_recorded)
    }

    /// Takes the next bytes of a trace, which may be any part of it.
    pub fn feed(&mut self, bytes: &[u8]) -> Result<Progress, Error> {
        told(unsafe { raw::qaudit_feed(&mut self.0, bytes.as_ptr(), bytes.len()) })
    }

    /// Takes a header.
    pub fn header(&mut self, header: &Header) -> Result<Progress, Error> {
        let raw = raw::Header {
            max_datagram_size: header.max_datagram_size,
            max_ack_delay: header.max_ack_delay.unwrap_or(0),
            initial_rtt: header.initial_rtt.unwrap_or(0),
            initial_window: header.initial_window.unwrap_or(0),
            timer_late_us: header.timer_late_us.unwrap_or(0),
            timer_early_us: header.timer_early_us,
            report_slack_us: header.report_slack_us,
            report_slack_bytes: header.report_slack_bytes,
            packet_threshold: header.packet_threshold.unwrap_or(0),
            time_threshold_eighths: header.time_threshold_eighths.unwrap_or(0),
            role: header.role as u32,
            unit: header.unit as u32,
            window: header.window as u32,
            loss_by_number: u32::from(header.may_be_lost),
            threshold_counts: u32::from(header.counts_packets),
            has_max_ack_delay: header.max_ack_delay.is_some(),
            has_initial_rtt: header.initial_rtt.is_some(),
            has_initial_window: header.initial_window.is_some(),
            has_timer_late_us: header.timer_late_us.is_some(),
            has_packet_threshold: header.packet_threshold.is_some(),
            has_time_threshold_eighths: header.time_threshold_eighths.is_some(),
            refresh_min_rtt: header.refresh_min_rtt,
            window_overshoot: header.window_overshoot,
            sample_eliciting_only: header.sample_eliciting_only,
            reset_rtt: header.reset_rtt,
            latest_rtt_less_delay: header.latest_rtt_less_delay,
            recovery_by_order: header.recovery_by_order,
        };
        told(unsafe { raw::qaudit_header(&mut self.0, &raw) })
    }

    /// Takes a packet that was sent.
    pub fn sent(&mut self, packet: &Packet) -> Result<Progress, Error> {
        let raw = raw::Packet {
            time: packet.time,
            number: packet.number,
            size: packet.size,
            space: packet.space as u32,
            leave: packet.leave as u32,
            eliciting: packet.eliciting,
            in_flight: packet.in_flight,
        };
        told(unsafe { raw::qaudit_sent(&mut self.0, &raw) })
    }

    /// Takes an acknowledgment that came: the ranges of packet numbers, in any order, and the delay
    /// as the sender used it.
    pub fn ack(
        &mut self,
        time: u64,
        space: Space,
        ranges: &[RangeInclusive<u64>],
        delay: u64,
        app_limited: bool,
    ) -> Result<Progress, Error> {
        let ack = raw::Acknowledgment {
            time,
            delay,
            space: space as u32,
            app_limited,
        };
        let ranges = raw_ranges(ranges);
        told(unsafe { raw::qaudit_ack(&mut self.0, &ack, ranges.as_ptr(), ranges.len()) })
    }

    /// Takes packets that the sender declared lost.
    pub fn lost(
        &mut self,
        time: u64,
        space: Space,
        ranges: &[RangeInclusive<u64>],
    ) -> Result<Progress, Error> {
        let ranges = raw_ranges(ranges);
        told(unsafe {
            raw::qaudit_lost(
                &mut self.0,
                time,
                space as u32,
                ranges.as_ptr(),
                ranges.len(),
            )
        })
    }

    /// Takes a timer that fired.
    pub fn timer(&mut self, time: u64, kind: TimerKind, space: Space) -> Result<Progress, Error> {
        let raw = raw::Timer {
            time,
            kind: kind as u32,
            space: space as u32,
        };
        told(unsafe { raw::qaudit_timer(&mut self.0, &raw) })
    }

    /// Takes that the keys of a space were discarded.
    pub fn discard(&mut self, time: u64, space: Space) -> Result<Progress, Error> {
        told(unsafe { raw::qaudit_discard(&mut self.0, time, space as u32) })
    }

    /// Takes that the handshake was confirmed.
    pub fn confirmed(&mut self, time: u64) -> Result<Progress, Error> {
        told(unsafe { raw::qaudit_confirmed(&mut self.0, time) })
    }

    /// Takes that the keys of the Handshake space are there.
    pub fn keys(&mut self, time: u64) -> Result<Progress, Error> {
        told(unsafe { raw::qaudit_keys(&mut self.0, time) })
    }

    /// Takes what the sender reports of itself.
    pub fn metrics(&mut self, time: u64, metrics: &Metrics) -> Result<Progress, Error> {
        let values = [
            metrics.window,
            metrics.ssthresh,
            metrics.bytes_in_flight,
            metrics.latest_rtt,
            metrics.min_rtt,
            metrics.smoothed_rtt,
            metrics.rttvar,
        ];
        let raw = raw::Metrics {
            time,
            values: values.map(|value| value.unwrap_or(0)),
            has: values.map(|value| value.is_some()),
        };
        told(unsafe { raw::qaudit_metrics(&mut self.0, &raw) })
    }

    /// Says that nothing follows, and returns the verdict.
    pub fn finish(&mut self) -> Result<Verdict, Error> {
        told(unsafe { raw::qaudit_finish(&mut self.0) })?;
        self.verdict().ok_or(Error::OutOfMemory)
    }

    /// The verdict, where it is known: once it is fixed, and after `finish`.
    pub fn verdict(&mut self) -> Option<Verdict> {
        // SAFETY: all fields are numbers and flags.
        let mut out: raw::Told = unsafe { zeroed() };
        if !unsafe { raw::qaudit_verdict(&mut self.0, &mut out) } {
            return None;
        }
        let totals = Totals {
            events: out.totals.events,
            window: out.totals.window,
            ssthresh: out.totals.has_ssthresh.then_some(out.totals.ssthresh),
            bytes_in_flight: out.totals.bytes_in_flight,
            latest_rtt: out.totals.latest_rtt,
            min_rtt: out.totals.min_rtt,
            smoothed_rtt: out.totals.smoothed_rtt,
            rttvar: out.totals.rttvar,
            pto_count: out.totals.pto_count,
            owed: out.totals.owed,
        };
        let cause = |name: unsafe extern "C" fn(u32, *mut u8, usize) -> usize| Cause {
            number: out.code,
            name: text(|at, room| unsafe { name(out.code, at, room) }),
            subject: (out.subject != 0)
                .then(|| text(|at, room| unsafe { raw::qaudit_key_name(out.subject, at, room) })),
        };
        Some(match out.kind {
            1 => Verdict::Accepted { totals },
            2 => Verdict::Refused {
                line: out.line,
                rule: cause(raw::qaudit_rule_name),
                totals,
            },
            _ => Verdict::Unreadable {
                line: out.line,
                fault: cause(raw::qaudit_fault_name),
                totals: out.has_totals.then_some(totals),
            },
        })
    }

    /// The report, as `qaudit check` writes it; empty where no verdict is known.
    pub fn report(&mut self) -> String {
        text(|at, room| unsafe { raw::qaudit_report(&mut self.0, at, room) })
    }

    /// The first line of the report, without its LF; empty where no verdict is known.
    pub fn first_line(&mut self) -> String {
        let line = text(|at, room| unsafe { raw::qaudit_first_line(&mut self.0, at, room) });
        line.trim_end().to_owned()
    }

    /// Why it is refused, as `qaudit-why` writes it; empty if nothing was recorded.
    pub fn why(&mut self) -> String {
        text(|at, room| unsafe { raw::qaudit_why(&mut self.0, at, room) })
    }

    /// The same with the state of the model after each of the last `rows` lines before.
    pub fn around(&mut self, rows: u16) -> String {
        text(|at, room| unsafe { raw::qaudit_around(&mut self.0, rows, at, room) })
    }

    /// What the header allowed, if what was recorded is accepted; empty if it allowed nothing.
    pub fn allowed(&mut self) -> Vec<Allowance> {
        let mut all = [raw::Allowance::default(); MOST_ALLOWED];
        let count = unsafe { raw::qaudit_allowed(&mut self.0, all.as_mut_ptr(), all.len()) };
        all[..count].iter().map(allowance).collect()
    }
}

/// How many allowances there are at most.
const MOST_ALLOWED: usize = 14;

fn allowance(raw: &raw::Allowance) -> Allowance {
    let key = |number| text(|at, room| unsafe { raw::qaudit_key_name(number, at, room) });
    Allowance {
        rule: Cause {
            number: raw.rule,
            name: text(|at, room| unsafe { raw::qaudit_rule_name(raw.rule, at, room) }),
            subject: (raw.subject != 0).then(|| key(raw.subject)),
        },
        key: key(raw.key),
        count: raw.count,
        first: raw.first,
        last: raw.last,
        greatest: raw.greatest,
        limit: raw.has_limit.then_some(raw.limit),
    }
}

fn opened(open: unsafe extern "C" fn(*mut raw::Qaudit) -> u32) -> Result<Auditor, Error> {
    let mut auditor = Auditor(raw::Qaudit {
        at: null_mut(),
        is_open: false,
    });
    match unsafe { open(&mut auditor.0) } {
        0 => Ok(auditor),
        _ => Err(Error::OutOfMemory),
    }
}

impl Drop for Auditor {
    fn drop(&mut self) {
        unsafe { raw::qaudit_close(&mut self.0) }
    }
}

/// What a status says.
fn told(status: u32) -> Result<Progress, Error> {
    match status {
        0 => Ok(Progress::Open),
        1 => Ok(Progress::Fixed),
        2 => Ok(Progress::Finished),
        5 => Err(Error::OutOfRange),
        6 => Err(Error::NotTaken),
        7 => Err(Error::InsideLine),
        _ => Err(Error::OutOfMemory),
    }
}

fn raw_ranges(ranges: &[RangeInclusive<u64>]) -> Vec<raw::Range> {
    let raw = |range: &RangeInclusive<u64>| raw::Range {
        least: *range.start(),
        greatest: *range.end(),
    };
    ranges.iter().map(raw).collect()
}

/// A text that is put into a buffer, again into a longer one if it has no room there.
fn text(mut put: impl FnMut(*mut u8, usize) -> usize) -> String {
    let mut bytes = vec![0; 4096];
    let mut count = put(bytes.as_mut_ptr(), bytes.len());
    if count > bytes.len() {
        bytes.resize(count, 0);
        count = put(bytes.as_mut_ptr(), bytes.len());
    }
    bytes.truncate(count);
    String::from_utf8_lossy(&bytes).into_owned()
}
