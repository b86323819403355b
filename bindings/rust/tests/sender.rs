//! An example: an auditor hooked into a small sender, and a test that fails at the first departure.
//!
//! The sender knows its window and nothing else of loss recovery. It tells its hook what it does,
//! in the lines where a real one would.
use qaudit::{Auditor, Error, Header, Packet, Progress, Role, Space};

const SIZE: u64 = 1200;
const WINDOW: u64 = 12_000;

/// What a sender calls. It panics at the first call that departs from RFC 9002.
struct Hook {
    auditor: Auditor,
}

impl Hook {
    fn new() -> Hook {
        let auditor =
            Auditor::new(&Header::new(Role::Server, SIZE)).expect("memory for an auditor");
        Hook { auditor }
    }

    fn check(&mut self, progress: Result<Progress, Error>) {
        if progress != Ok(Progress::Open) {
            panic!("{}", self.auditor.report());
        }
    }

    fn on_packet_sent(&mut self, time: u64, number: u64) {
        let progress = self
            .auditor
            .sent(&Packet::new(time, Space::App, number, SIZE));
        self.check(progress);
    }

    fn on_ack_received(&mut self, time: u64, first: u64, last: u64) {
        let progress = self
            .auditor
            .ack(time, Space::App, &[first..=last], 0, false);
        self.check(progress);
    }
}

/// A small sender, which sends as much as its window has room for.
struct Sender {
    hook: Hook,
    window: u64,
    time: u64,
    number: u64,
    first_in_flight: u64,
}

impl Sender {
    fn new(window: u64) -> Sender {
        Sender {
            hook: Hook::new(),
            window,
            time: 0,
            number: 0,
            first_in_flight: 0,
        }
    }

    fn send_all(&mut self) {
        while (self.number + 1 - self.first_in_flight) * SIZE <= self.window {
            self.hook.on_packet_sent(self.time, self.number);
            self.number += 1;
        }
    }

    fn receive(&mut self, time: u64) {
        self.time = time;
        self.hook
            .on_ack_received(time, self.first_in_flight, self.number - 1);
        self.first_in_flight = self.number;
    }
}

#[test]
fn a_transfer() {
    let mut sender = Sender::new(WINDOW);
    sender.send_all();
    sender.receive(100_000);
    sender.send_all();
}

#[test]
#[should_panic(expected = "refused line 12 V7 past-window")]
fn a_packet_too_many() {
    Sender::new(WINDOW + SIZE).send_all();
}
