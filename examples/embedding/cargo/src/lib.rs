//! A small sender. It calls a hook where loss recovery does something.

pub const SIZE: u64 = 1200;
/// Bytes that the sender keeps in flight.
pub const WINDOW: u64 = 12_000;

pub trait Hook {
    fn on_packet_sent(&mut self, time: u64, number: u64);
    fn on_ack_received(&mut self, time: u64, first: u64, last: u64);
}

pub struct Sender<H> {
    pub hook: H,
    time: u64,
    number: u64,
    first_in_flight: u64,
}

impl<H: Hook> Sender<H> {
    pub fn new(hook: H) -> Self {
        Self {
            hook,
            time: 0,
            number: 0,
            first_in_flight: 0,
        }
    }

    pub fn send_all(&mut self) {
        while (self.number + 1 - self.first_in_flight) * SIZE <= WINDOW {
            self.hook.on_packet_sent(self.time, self.number);
            self.number += 1;
        }
    }

    pub fn receive(&mut self, time: u64) {
        self.time = time;
        self.hook
            .on_ack_received(time, self.first_in_flight, self.number - 1);
        self.first_in_flight = self.number;
    }
}
