//! What `include/qaudit.h` declares.
use std::ffi::c_void;

#[repr(C)]
pub struct Qaudit {
    pub at: *mut c_void,
    pub is_open: bool,
}

#[repr(C)]
pub struct Header {
    pub max_datagram_size: u64,
    pub max_ack_delay: u64,
    pub initial_rtt: u64,
    pub initial_window: u64,
    pub timer_late_us: u64,
    pub timer_early_us: u64,
    pub report_slack_us: u64,
    pub report_slack_bytes: u64,
    pub packet_threshold: u64,
    pub time_threshold_eighths: u64,
    pub role: u32,
    pub unit: u32,
    pub window: u32,
    pub loss_by_number: u32,
    pub threshold_counts: u32,
    pub has_max_ack_delay: bool,
    pub has_initial_rtt: bool,
    pub has_initial_window: bool,
    pub has_timer_late_us: bool,
    pub has_packet_threshold: bool,
    pub has_time_threshold_eighths: bool,
    pub refresh_min_rtt: bool,
    pub window_overshoot: bool,
    pub sample_eliciting_only: bool,
    pub reset_rtt: bool,
    pub latest_rtt_less_delay: bool,
    pub recovery_by_order: bool,
}

#[repr(C)]
pub struct Packet {
    pub time: u64,
    pub number: u64,
    pub size: u64,
    pub space: u32,
    pub leave: u32,
    pub eliciting: bool,
    pub in_flight: bool,
}

#[repr(C)]
pub struct Range {
    pub least: u64,
    pub greatest: u64,
}

#[repr(C)]
pub struct Acknowledgment {
    pub time: u64,
    pub delay: u64,
    pub space: u32,
    pub app_limited: bool,
}

#[repr(C)]
pub struct Timer {
    pub time: u64,
    pub kind: u32,
    pub space: u32,
}

#[repr(C)]
pub struct Metrics {
    pub time: u64,
    pub values: [u64; 7],
    pub has: [bool; 7],
}

#[repr(C)]
#[derive(Default)]
pub struct Totals {
    pub events: u64,
    pub window: u64,
    pub ssthresh: u64,
    pub bytes_in_flight: u64,
    pub latest_rtt: u64,
    pub min_rtt: u64,
    pub smoothed_rtt: u64,
    pub rttvar: u64,
    pub pto_count: u64,
    pub owed: u64,
    pub has_ssthresh: bool,
}

#[repr(C)]
#[derive(Default)]
pub struct Told {
    pub kind: u32,
    pub code: u32,
    pub line: u64,
    pub subject: u32,
    pub totals: Totals,
    pub has_totals: bool,
}

#[repr(C)]
#[derive(Clone, Copy, Default)]
pub struct Allowance {
    pub count: u64,
    pub first: u64,
    pub last: u64,
    pub greatest: u64,
    pub limit: u64,
    pub rule: u32,
    pub subject: u32,
    pub key: u32,
    pub has_limit: bool,
}

extern "C" {
    pub fn qaudit_open(q: *mut Qaudit) -> u32;
    pub fn qaudit_open_recorded(q: *mut Qaudit) -> u32;
    pub fn qaudit_close(q: *mut Qaudit);
    pub fn qaudit_feed(q: *mut Qaudit, bytes: *const u8, count: usize) -> u32;
    pub fn qaudit_header(q: *mut Qaudit, header: *const Header) -> u32;
    pub fn qaudit_sent(q: *mut Qaudit, packet: *const Packet) -> u32;
    pub fn qaudit_ack(
        q: *mut Qaudit,
        ack: *const Acknowledgment,
        ranges: *const Range,
        count: usize,
    ) -> u32;
    pub fn qaudit_lost(
        q: *mut Qaudit,
        time: u64,
        space: u32,
        ranges: *const Range,
        count: usize,
    ) -> u32;
    pub fn qaudit_timer(q: *mut Qaudit, timer: *const Timer) -> u32;
    pub fn qaudit_discard(q: *mut Qaudit, time: u64, space: u32) -> u32;
    pub fn qaudit_confirmed(q: *mut Qaudit, time: u64) -> u32;
    pub fn qaudit_keys(q: *mut Qaudit, time: u64) -> u32;
    pub fn qaudit_metrics(q: *mut Qaudit, metrics: *const Metrics) -> u32;
    pub fn qaudit_finish(q: *mut Qaudit) -> u32;
    pub fn qaudit_verdict(q: *mut Qaudit, out: *mut Told) -> bool;
    pub fn qaudit_report(q: *mut Qaudit, out: *mut u8, room: usize) -> usize;
    pub fn qaudit_first_line(q: *mut Qaudit, out: *mut u8, room: usize) -> usize;
    pub fn qaudit_why(q: *mut Qaudit, out: *mut u8, room: usize) -> usize;
    pub fn qaudit_around(q: *mut Qaudit, rows: u16, out: *mut u8, room: usize) -> usize;
    pub fn qaudit_allowed(q: *mut Qaudit, out: *mut Allowance, room: usize) -> usize;
    pub fn qaudit_rule_name(rule: u32, out: *mut u8, room: usize) -> usize;
    pub fn qaudit_fault_name(fault: u32, out: *mut u8, room: usize) -> usize;
    pub fn qaudit_key_name(key: u32, out: *mut u8, room: usize) -> usize;
}
