//! quinn-loop KEY CERT MEGABYTES: two endpoints of quinn-proto in one loop without sockets. The server sends this many
//! megabytes on one stream, and the client checks that they are the same. KEY and CERT are files in DER.
use bytes::BytesMut;
use quinn_proto::{
    ClientConfig, Connection, ConnectionHandle, DatagramEvent, Dir, Endpoint, EndpointConfig, ServerConfig, StreamId,
};
use rustls::pki_types::{CertificateDer, PrivatePkcs8KeyDer};
use std::collections::HashMap;
use std::net::SocketAddr;
use std::sync::Arc;
use std::time::{Duration, Instant};

/// The most bytes of a datagram.
const MOST_BYTES: usize = 1500;

/// One of the two, with its connections.
struct Side {
    endpoint: Endpoint,
    connections: HashMap<ConnectionHandle, Connection>,
    addr: SocketAddr,
    sent: u64,
}

impl Side {
    fn new(endpoint: Endpoint, addr: &str) -> Self {
        Side { endpoint, connections: HashMap::new(), addr: addr.parse().expect("an address"), sent: 0 }
    }

    /// All that is to be sent now.
    fn datagrams(&mut self, now: Instant) -> Vec<Vec<u8>> {
        let mut out = Vec::new();
        for (&handle, connection) in &mut self.connections {
            loop {
                let before = out.len();
                loop {
                    let mut datagram = Vec::with_capacity(MOST_BYTES);
                    if connection.poll_transmit(now, 1, &mut datagram).is_none() {
                        break;
                    }
                    out.push(datagram);
                }
                let mut is_idle = out.len() == before;
                while let Some(event) = connection.poll_endpoint_events() {
                    is_idle = false;
                    if let Some(event) = self.endpoint.handle_event(handle, event) {
                        connection.handle_event(event);
                    }
                }
                if is_idle {
                    break;
                }
            }
        }
        self.sent += out.len() as u64;
        out
    }

    /// Receives a datagram.
    fn take(&mut self, now: Instant, from: SocketAddr, datagram: &[u8]) {
        let mut answer = Vec::new();
        match self.endpoint.handle(now, from, None, None, BytesMut::from(datagram), &mut answer) {
            Some(DatagramEvent::NewConnection(incoming)) => {
                let accepted = self.endpoint.accept(incoming, now, &mut answer, None);
                let Ok((handle, connection)) = accepted else { panic!("a connection that isn't taken") };
                self.connections.insert(handle, connection);
            }
            Some(DatagramEvent::ConnectionEvent(handle, event)) => {
                self.connections.get_mut(&handle).expect("a connection").handle_event(event);
            }
            Some(DatagramEvent::Response(_)) => panic!("an answer of the endpoint"),
            None => {}
        }
    }

    fn timers(&mut self, now: Instant) {
        for connection in self.connections.values_mut() {
            if connection.poll_timeout().is_some_and(|at| at <= now) {
                connection.handle_timeout(now);
            }
        }
    }
}

/// What the stream repeats.
static PERIOD: [u8; 1 << 16] = {
    let mut bytes = [0; 1 << 16];
    let mut i = 0;
    while i < bytes.len() {
        bytes[i] = (i % 251) as u8;
        i += 1;
    }
    bytes
};

/// The stream from an offset on, up to the end of its period.
fn expected(place: usize) -> &'static [u8] {
    &PERIOD[place % PERIOD.len()..]
}

/// Writes what the stream accepts; opens it first.
fn write(connection: &mut Connection, stream: &mut Option<StreamId>, wrote: &mut usize, total: usize) {
    while connection.poll().is_some() {}
    if connection.is_handshaking() {
        return;
    }
    let Some(id) = *stream else {
        *stream = connection.streams().open(Dir::Uni);
        return;
    };
    while *wrote < total {
        let left = expected(*wrote);
        match connection.send_stream(id).write(&left[..left.len().min(total - *wrote)]) {
            Ok(count) => *wrote += count,
            Err(_) => return,
        }
    }
    if *wrote == total {
        *wrote += 1;
        connection.send_stream(id).finish().expect("a stream that is open");
    }
}

/// Reads what the stream has received; returns true at its end.
fn read(connection: &mut Connection, stream: &mut Option<StreamId>, got: &mut usize) -> bool {
    while connection.poll().is_some() {}
    if stream.is_none() {
        *stream = connection.streams().accept(Dir::Uni);
    }
    let Some(id) = *stream else {
        return false;
    };
    let mut receiver = connection.recv_stream(id);
    let mut chunks = receiver.read(true).expect("a stream that is open");
    let is_done = loop {
        match chunks.next(usize::MAX) {
            Ok(Some(chunk)) => {
                let mut bytes = &chunk.bytes[..];
                while !bytes.is_empty() {
                    let count = bytes.len().min(expected(*got).len());
                    assert_eq!(bytes[..count], expected(*got)[..count], "other bytes");
                    bytes = &bytes[count..];
                    *got += count;
                }
            }
            Ok(None) => break true,
            Err(_) => break false,
        }
    };
    let _ = chunks.finalize();
    is_done
}

fn main() {
    let args: Vec<String> = std::env::args().collect();
    let key = PrivatePkcs8KeyDer::from(std::fs::read(&args[1]).expect("KEY")).into();
    let cert = CertificateDer::from(std::fs::read(&args[2]).expect("CERT"));
    let total: usize = args[3].parse::<usize>().expect("MEGABYTES") * 1_000_000;

    let server_config = ServerConfig::with_single_cert(vec![cert.clone()], key).expect("a key");
    let mut roots = rustls::RootCertStore::empty();
    roots.add(cert).expect("a certificate");
    let config = Arc::new(EndpointConfig::default());
    let mut server = Side::new(Endpoint::new(config.clone(), Some(Arc::new(server_config)), true, None), "127.0.0.1:1");
    let mut client = Side::new(Endpoint::new(config, None, true, None), "127.0.0.1:2");
    let client_config = ClientConfig::with_root_certificates(Arc::new(roots)).expect("roots");
    let mut now = Instant::now();
    let (handle, connection) = client.endpoint.connect(now, client_config, server.addr, "localhost").expect("connects");
    client.connections.insert(handle, connection);

    let (mut wrote, mut got, mut sends, mut receives) = (0, 0, None, None);
    for _ in 0..10_000_000 {
        for datagram in client.datagrams(now) {
            server.take(now, client.addr, &datagram);
        }
        for connection in server.connections.values_mut() {
            write(connection, &mut sends, &mut wrote, total);
        }
        let datagrams = server.datagrams(now);
        let is_idle = datagrams.is_empty();
        for datagram in datagrams {
            client.take(now, server.addr, &datagram);
        }
        if read(client.connections.get_mut(&handle).expect("a connection"), &mut receives, &mut got) {
            break;
        }
        now += Duration::from_micros(if is_idle { 1000 } else { 200 });
        server.timers(now);
        client.timers(now);
    }
    assert_eq!(got, total, "bytes that came");
    println!("{got} bytes, {} datagrams", server.sent + client.sent);
}
