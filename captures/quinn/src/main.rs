//! A transfer between a client and a server of quinn-proto in simulated time, with a trace of each.
//!
//! simulation SEED down|up BYTES CERTIFICATE KEY OUT [OPTION VALUE]..
//!
//! The options are those of the proxy, by which the links between the two are made. The traces are
//! OUT/client.trace and OUT/server.trace.

use std::{
    collections::HashMap,
    env, fs,
    net::SocketAddr,
    path::Path,
    sync::Arc,
    time::{Duration, Instant},
};

use quinn_proto::*;
use rand::{rngs::StdRng, Rng, SeedableRng};

/// Microseconds from the beginning.
type Time = u64;

const CLIENT: usize = 0;
const SERVER: usize = 1;
const NAMES: [&str; 2] = ["client", "server"];
const BEGINNING: Time = 1_000;
const LAST: Time = 60_000_000;
/// How long the two go on behind the last byte.
const REST: Time = 300_000;
/// Of quinn: the largest datagram, and ten of them.
const DATAGRAM: u64 = 1_232;
const WINDOW: u64 = 12_320;

/// What the command line says of the links.
struct Options(HashMap<String, String>);

impl Options {
    fn number(&self, name: &str, otherwise: f64) -> f64 {
        self.0
            .get(name)
            .map_or(otherwise, |it| it.parse().expect("a number"))
    }

    /// Milliseconds as microseconds.
    fn time(&self, name: &str) -> Time {
        (self.number(name, 0.0) * 1_000.0) as Time
    }

    /// Pairs that are written `A-B` or `A:B`, or one number for both, with commas between.
    fn pairs(&self, name: &str) -> Vec<(u64, u64)> {
        let text = self.0.get(name).map_or("", |it| it.as_str());
        text.split(',')
            .filter(|it| !it.is_empty())
            .map(|it| {
                let ends = it
                    .split(['-', ':'])
                    .map(|end| end.parse().expect("a number"));
                let ends: Vec<u64> = ends.collect();
                (ends[0], ends[ends.len() - 1])
            })
            .collect()
    }
}

/// One direction between the two.
struct Link {
    random: StdRng,
    count: u64,
    free_at: Time,
    delay: Time,
    jitter: Time,
    loss: f64,
    reorder: f64,
    reorder_by: Time,
    /// Bytes in a microsecond; 0 where there is no bottleneck.
    rate: f64,
    queue: f64,
    dropped: Vec<(u64, u64)>,
    blackouts: Vec<(u64, u64)>,
}

impl Link {
    fn new(options: &Options, seed: u64, from: usize) -> Link {
        let loss = options.number("-loss", 0.0);
        let is_up = from == CLIENT;
        Link {
            random: StdRng::seed_from_u64(2 * seed + from as u64),
            count: 0,
            free_at: 0,
            delay: options.time("-delay"),
            jitter: options.time("-jitter"),
            loss: if is_up {
                options.number("-loss-up", loss)
            } else {
                loss
            },
            reorder: options.number("-reorder", 0.0),
            reorder_by: options.time("-reorder-by"),
            rate: options.number("-rate", 0.0) / 1_000.0,
            queue: options.number("-queue", 40_000.0),
            dropped: options.pairs(if is_up { "-drop-up" } else { "-drop-down" }),
            blackouts: options.pairs("-blackout"),
        }
    }

    /// When a datagram arrives, if it does.
    fn arrival(&mut self, now: Time, size: usize) -> Option<Time> {
        let number = self.count;
        self.count += 1;
        let draws: [f64; 3] = self.random.gen();
        let is_in = |pairs: &[(u64, u64)], it: u64| pairs.iter().any(|p| p.0 <= it && it <= p.1);
        if is_in(&self.blackouts, now / 1_000)
            || is_in(&self.dropped, number)
            || draws[0] < self.loss
        {
            return None;
        }
        let mut leaves = now;
        if self.rate > 0.0 {
            self.free_at = self.free_at.max(now);
            if (self.free_at - now) as f64 * self.rate > self.queue {
                return None;
            }
            self.free_at += (size as f64 / self.rate) as Time;
            leaves = self.free_at;
        }
        let late = if draws[2] < self.reorder {
            self.reorder_by
        } else {
            0
        };
        Some(leaves + self.delay + (self.jitter as f64 * draws[1]) as Time + late)
    }
}

/// An endpoint, and what is on its way to it.
struct Peer {
    endpoint: Endpoint,
    address: SocketAddr,
    connections: HashMap<ConnectionHandle, Connection>,
    /// The time of arrival of each datagram, and which of all it is.
    inbound: Vec<(Time, u64, Vec<u8>)>,
    stream: Option<StreamId>,
    /// How many bytes it is still to write, and how many it has read.
    left: usize,
    read: usize,
}

impl Peer {
    fn new(address: &str, server: Option<ServerConfig>) -> Peer {
        let config = Arc::new(EndpointConfig::default());
        Peer {
            endpoint: Endpoint::new(config, server.map(Arc::new)),
            address: address.parse().expect("an address"),
            connections: HashMap::new(),
            inbound: Vec::new(),
            stream: None,
            left: 0,
            read: 0,
        }
    }

    /// Takes in the datagrams that have arrived.
    fn receive(&mut self, now: Instant, time: Time, from: SocketAddr) {
        self.inbound.sort();
        let arrived = self.inbound.iter().take_while(|it| it.0 <= time).count();
        for (_, _, datagram) in self.inbound.drain(..arrived).collect::<Vec<_>>() {
            let data = bytes::BytesMut::from(&datagram[..]);
            match self.endpoint.handle(now, from, None, None, data) {
                Some((handle, DatagramEvent::NewConnection(it))) => {
                    self.connections.insert(handle, it);
                }
                Some((handle, DatagramEvent::ConnectionEvent(event))) => {
                    if let Some(it) = self.connections.get_mut(&handle) {
                        it.handle_event(event);
                    }
                }
                None => {}
            }
        }
    }

    /// Lets timers fire, opens or accepts the stream, and reads and writes on it.
    fn advance(&mut self, now: Instant, side: usize, upload: usize, download: usize) {
        for connection in self.connections.values_mut() {
            if connection.poll_timeout().is_some_and(|it| it <= now) {
                connection.handle_timeout(now);
            }
            while let Some(event) = connection.poll() {
                if side == CLIENT && self.stream.is_none() && matches!(event, Event::Connected) {
                    let id = connection.streams().open(Dir::Bi).expect("a stream");
                    (self.stream, self.left) = (Some(id), upload);
                }
            }
            if side == SERVER && self.stream.is_none() {
                self.stream = connection.streams().accept(Dir::Bi);
                self.left = if self.stream.is_some() { download } else { 0 };
            }
            let Some(id) = self.stream else { continue };
            while self.left > 0 {
                let part = [0; 16_384];
                let most = self.left.min(part.len());
                let Ok(written) = connection.send_stream(id).write(&part[..most]) else {
                    break;
                };
                self.left -= written;
                if self.left == 0 {
                    connection.send_stream(id).finish().expect("an open stream");
                }
            }
            let mut stream = connection.recv_stream(id);
            if let Ok(mut chunks) = stream.read(true) {
                while let Ok(Some(it)) = chunks.next(usize::MAX) {
                    self.read += it.bytes.len();
                }
                let _ = chunks.finalize();
            };
        }
    }

    /// The datagrams that it sends now.
    fn sent(&mut self, now: Instant) -> Vec<Vec<u8>> {
        let mut sent = Vec::new();
        let mut events = Vec::new();
        while let Some(it) = self.endpoint.poll_transmit() {
            sent.push(it.contents);
        }
        for (handle, connection) in &mut self.connections {
            while let Some(event) = connection.poll_endpoint_events() {
                events.push((*handle, event));
            }
            while let Some(it) = connection.poll_transmit(now, 1) {
                sent.push(it.contents);
            }
        }
        for (handle, event) in events {
            if let Some(answer) = self.endpoint.handle_event(handle, event) {
                if let Some(connection) = self.connections.get_mut(&handle) {
                    connection.handle_event(answer);
                }
            }
        }
        sent
    }

    /// When something happens here next.
    fn next(&mut self, base: Instant) -> Option<Time> {
        let arrivals = self.inbound.iter().map(|it| it.0).min();
        let timers = self
            .connections
            .values_mut()
            .filter_map(|it| it.poll_timeout());
        let in_time = timers.map(|it| (it.duration_since(base).as_nanos() as Time).div_ceil(1_000));
        arrivals.into_iter().chain(in_time).min()
    }
}

/// The configurations of the two, with NewReno.
fn configurations(certificate: &str, key: &str) -> (ClientConfig, ServerConfig) {
    let mut transport = TransportConfig::default();
    transport.congestion_controller_factory(Arc::new(congestion::NewRenoConfig::default()));
    let transport = Arc::new(transport);
    let certificate = rustls::Certificate(fs::read(certificate).expect("a certificate"));
    let key = rustls::PrivateKey(fs::read(key).expect("a key"));
    let mut roots = rustls::RootCertStore::empty();
    roots.add(&certificate).expect("a root");
    let mut server = ServerConfig::with_single_cert(vec![certificate], key).expect("a server");
    server.transport_config(transport.clone());
    let mut client = ClientConfig::with_root_certificates(roots);
    client.transport_config(transport);
    (client, server)
}

fn write_traces(out: &Path) {
    for (side, name) in NAMES.iter().enumerate() {
        let header = format!(
            "{{\"event\":\"header\",\"version\":3,\"role\":\"{name}\",\"unit\":\"ns\",\
             \"window\":\"reported\",\"max_datagram_size\":{DATAGRAM},\"initial_window\":{WINDOW}}}\n"
        );
        let lines: Vec<String> = qa::take(side == CLIENT);
        let text = header + &lines.join("\n") + "\n";
        fs::write(out.join(format!("{name}.trace")), text).expect("a folder to write in");
    }
}

fn main() {
    let words: Vec<String> = env::args().collect();
    let seed: u64 = words[1].parse().expect("a seed");
    let size: usize = words[3].parse().expect("a size");
    let (upload, download) = if words[2] == "up" {
        (size, 1)
    } else {
        (1, size)
    };
    let pairs = words[7..]
        .chunks(2)
        .map(|it| (it[0].clone(), it[1].clone()));
    let options = Options(pairs.collect());
    let (client, server) = configurations(&words[4], &words[5]);
    let mut peers = [
        Peer::new("[::1]:1000", None),
        Peer::new("[::1]:2000", Some(server)),
    ];
    let mut links = [CLIENT, SERVER].map(|from| Link::new(&options, seed, from));
    let base = Instant::now();
    qa::start(base);
    let to = peers[SERVER].address;
    let (handle, connection) = peers[CLIENT]
        .endpoint
        .connect(client, to, "localhost")
        .expect("a connection");
    peers[CLIENT].connections.insert(handle, connection);

    let (mut time, mut count, mut end) = (BEGINNING, 0, LAST);
    while time <= end {
        let now = base + Duration::from_micros(time);
        for side in [CLIENT, SERVER] {
            let other = peers[1 - side].address;
            peers[side].receive(now, time, other);
            peers[side].advance(now, side, upload, download);
            for datagram in peers[side].sent(now) {
                count += 1;
                if let Some(at) = links[side].arrival(time, datagram.len()) {
                    peers[1 - side].inbound.push((at, count, datagram));
                }
            }
        }
        if end == LAST && peers[SERVER].read >= upload && peers[CLIENT].read >= download {
            end = time + REST;
        }
        let next = peers.iter_mut().filter_map(|it| it.next(base)).min();
        time = next.map_or(LAST + 1, |it| it.max(time + 1));
    }
    write_traces(Path::new(&words[6]));
    if end == LAST {
        eprintln!("the transfer did not end");
        std::process::exit(1);
    }
}
