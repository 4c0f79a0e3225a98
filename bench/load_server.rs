//! A load for servers of WebSockets (RFC 6455) that answer each message with one, in order.
//!
//!     rustc -O --edition 2021 load_server.rs
//!     ./load_server PORT SESSIONS ON_THE_WAY SECONDS MESSAGE [FIRST..]
//!
//! It opens the sessions, each with a thread of its own, sends each the messages FIRST, one after the other, and writes `open`.
//! At a line of its input it keeps ON_THE_WAY messages MESSAGE unanswered in each session, for half a second and then SECONDS
//! more. It writes how many were answered in these SECONDS, the seconds, and the median and the 99th percentile of their round
//! trips in microseconds. At a further line, or the end of its input, it closes the sessions. With 0 SECONDS it sends nothing
//! between the two lines: the sessions are idle.
//!
//! A message is `PROTOCOL/TYPE/BODY`, where BODY is hexadecimal. Its header is written here, with the next even id. An answer
//! names the message that it answers by its correlation id; that of an echo, which is the message itself, by its id. Whatever
//! else comes ends the program with a status that is not 0, and so does an answer that does not come within ten seconds.
//!
//! It needs only Rust's std, and shares nothing with the servers.
use std::collections::VecDeque;
use std::env;
use std::io::{self, Read, Write};
use std::net::TcpStream;
use std::ops::Range;
use std::sync::Barrier;
use std::thread;
use std::time::{Duration, Instant};

/// How long the load lasts before answers are counted.
const WARM_UP: Duration = Duration::from_millis(500);

/// How long a server may take to answer.
const PATIENCE: Duration = Duration::from_secs(10);

/// The key of RFC 6455, section 1.3, and what a server answers to it.
const KEY: &str = "dGhlIHNhbXBsZSBub25jZQ==";
const ACCEPTED: &str = "s3pPLMBiTxaQ9kYGzzhZRbK+xOo=";

/// What a frame is masked with. It is no secret here, but a server has to undo it as any other.
const MASK: [u8; 4] = [0x37, 0xfa, 0x21, 0x3d];

/// A whole frame that is binary, a close, and a ping.
const BINARY: u8 = 0x82;
const CLOSE: u8 = 0x88;
const PING: u8 = 0x89;

/// The type of a ProtocolException.
const EXCEPTION: i64 = 1000;

/// A message without its id.
#[derive(Clone)]
struct Message {
    protocol: i64,
    kind: i64,
    body: Vec<u8>,
}

impl Message {
    /// The message of a word `PROTOCOL/TYPE/BODY`.
    fn of_word(word: &str) -> Message {
        let parts: Vec<&str> = word.split('/').collect();
        let [protocol, kind, body] = parts[..] else {
            panic!("no PROTOCOL/TYPE/BODY: {word}");
        };
        let body = (0..body.len())
            .step_by(2)
            .map(|at| u8::from_str_radix(&body[at..at + 2], 16).expect("hexadecimal digits"));
        Message {
            protocol: protocol.parse().expect("a protocol"),
            kind: kind.parse().expect("a type"),
            body: body.collect(),
        }
    }

    /// The message's bytes: its header, with correlation 0 and the flag of a last part, and its body.
    fn write(&self, id: i64, into: &mut Vec<u8>) {
        for number in [self.protocol, self.kind, 0, id, 2] {
            write_number(number, into);
        }
        into.extend_from_slice(&self.body);
    }
}

/// Appends a number as Avro writes it: zigzag, seven bits a byte, the lowest first.
fn write_number(number: i64, into: &mut Vec<u8>) {
    let mut rest = ((number << 1) ^ (number >> 63)) as u64;
    while rest >= 0x80 {
        into.push(rest as u8 | 0x80);
        rest >>= 7;
    }
    into.push(rest as u8);
}

/// Takes a number from the front of some bytes.
fn read_number(bytes: &mut &[u8]) -> i64 {
    let mut number: u64 = 0;
    for place in 0.. {
        let (&byte, rest) = bytes.split_first().expect("a whole header");
        *bytes = rest;
        number |= u64::from(byte & 0x7f) << (7 * place);
        if byte < 0x80 {
            break;
        }
    }
    (number >> 1) as i64 ^ -((number & 1) as i64)
}

/// The id of the message that this one answers.
fn answered(message: &[u8]) -> i64 {
    let mut rest = message;
    let [_protocol, kind, correlation, id] = [(); 4].map(|()| read_number(&mut rest));
    assert_ne!(kind, EXCEPTION, "refused: {message:02x?}");
    if correlation == 0 {
        id
    } else {
        correlation
    }
}

/// A client's side of a WebSocket.
struct Socket {
    stream: TcpStream,
    /// What was read. The bytes of `from..to` are not taken yet.
    input: Vec<u8>,
    from: usize,
    to: usize,
    /// What waits to be written.
    output: Vec<u8>,
}

impl Socket {
    /// Opens a connection by the handshake of section 4.1.
    fn open(port: u16) -> io::Result<Socket> {
        let stream = TcpStream::connect(("127.0.0.1", port))?;
        stream.set_nodelay(true)?;
        stream.set_read_timeout(Some(PATIENCE))?;
        let mut socket = Socket {
            stream,
            input: vec![0; 1 << 18],
            from: 0,
            to: 0,
            output: Vec::new(),
        };
        write!(
            socket.output,
            "GET / HTTP/1.1\r\nHost: 127.0.0.1:{port}\r\nUpgrade: websocket\r\nConnection: Upgrade\r\n\
             Sec-WebSocket-Key: {KEY}\r\nSec-WebSocket-Version: 13\r\n\
             Sec-WebSocket-Protocol: etp12.energistics.org\r\n\r\n"
        )?;
        socket.flush()?;
        let head = socket.head()?;
        assert!(
            head.starts_with("HTTP/1.1 101 ") && head.contains(ACCEPTED),
            "{head}"
        );
        Ok(socket)
    }

    /// The head of the server's answer to a handshake.
    fn head(&mut self) -> io::Result<String> {
        loop {
            let input = &self.input[self.from..self.to];
            if let Some(length) = input.windows(4).position(|end| end == b"\r\n\r\n") {
                let head = String::from_utf8_lossy(&input[..length]).into_owned();
                self.from += length + 4;
                return Ok(head);
            }
            self.read()?;
        }
    }

    /// Puts a frame into the output.
    fn put(&mut self, first: u8, payload: &[u8]) {
        self.output.push(first);
        match payload.len() {
            length @ 0..126 => self.output.push(0x80 | length as u8),
            length => {
                let length = u16::try_from(length).expect("a short message");
                self.output.push(0x80 | 126);
                self.output.extend_from_slice(&length.to_be_bytes());
            }
        }
        self.output.extend_from_slice(&MASK);
        let masked = payload
            .iter()
            .zip(MASK.iter().cycle())
            .map(|(byte, mask)| byte ^ mask);
        self.output.extend(masked);
    }

    fn flush(&mut self) -> io::Result<()> {
        self.stream.write_all(&self.output)?;
        self.output.clear();
        Ok(())
    }

    /// Reads once.
    fn read(&mut self) -> io::Result<()> {
        if self.from == self.to {
            (self.from, self.to) = (0, 0);
        } else if self.to == self.input.len() {
            self.input.copy_within(self.from..self.to, 0);
            (self.from, self.to) = (0, self.to - self.from);
        }
        assert!(self.to < self.input.len(), "a message that is too long");
        match self.stream.read(&mut self.input[self.to..])? {
            0 => Err(io::ErrorKind::UnexpectedEof.into()),
            count => {
                self.to += count;
                Ok(())
            }
        }
    }

    /// Takes a frame from what was read, if it is whole there: its first byte, and the place of its payload in the input.
    fn take(&mut self) -> Option<(u8, Range<usize>)> {
        let input = &self.input[self.from..self.to];
        let (&first, &length) = (input.first()?, input.get(1)?);
        let (head, length) = match length {
            0..126 => (2, usize::from(length)),
            126 => (
                4,
                usize::from(u16::from_be_bytes([*input.get(2)?, *input.get(3)?])),
            ),
            _ => panic!("a long or a masked frame"),
        };
        let payload = self.from + head..self.from + head + length;
        if payload.end > self.to {
            return None;
        }
        self.from = payload.end;
        Some((first, payload))
    }

    /// Takes an answer from what was read, if one is whole there, and gives the id of the message that it answers.
    fn take_answer(&mut self) -> Option<i64> {
        loop {
            match self.take()? {
                (BINARY, payload) => return Some(answered(&self.input[payload])),
                // The server bears with a silence that is longer than any here, so its ping goes without an answer.
                (PING, _) => {}
                (first, _) => panic!("a frame that begins with {first:02x}"),
            }
        }
    }
}

/// A session over a socket: the messages that are not answered yet, in their order, each with its id and when it was sent.
struct Session {
    socket: Socket,
    last_id: i64,
    unanswered: VecDeque<(i64, Instant)>,
    message: Vec<u8>,
}

impl Session {
    /// Opens a session, and sends it these messages, each once the one before it is answered.
    fn open(port: u16, first: &[Message]) -> io::Result<Session> {
        let mut session = Session {
            socket: Socket::open(port)?,
            last_id: 0,
            unanswered: VecDeque::new(),
            message: Vec::new(),
        };
        for message in first {
            session.send(message, 1, Instant::now())?;
            while !session.unanswered.is_empty() {
                session.receive(|_| {})?;
            }
        }
        Ok(session)
    }

    /// Sends a message so many times, at this moment, by one write.
    fn send(&mut self, message: &Message, times: usize, now: Instant) -> io::Result<()> {
        for _ in 0..times {
            self.last_id += 2;
            self.message.clear();
            message.write(self.last_id, &mut self.message);
            self.socket.put(BINARY, &self.message);
            self.unanswered.push_back((self.last_id, now));
        }
        self.socket.flush()
    }

    /// Reads once, and calls `each` with the moment at which each message was sent that is answered by what came. It gives the
    /// moment of the read, and how many messages were answered.
    fn receive(&mut self, mut each: impl FnMut(Duration)) -> io::Result<(Instant, usize)> {
        self.socket.read()?;
        let now = Instant::now();
        let mut count = 0;
        while let Some(id) = self.socket.take_answer() {
            let (expected, sent) = self.unanswered.pop_front().expect("an answer to a message");
            assert_eq!(id, expected, "an answer to another message");
            each(now - sent);
            count += 1;
        }
        Ok((now, count))
    }

    /// Keeps so many messages unanswered until the load has lasted so long, and gives the round trips, in nanoseconds, of those
    /// that were answered after the warm-up. Then it waits until all are answered.
    fn load(
        &mut self,
        message: &Message,
        on_the_way: usize,
        time: Duration,
    ) -> io::Result<Vec<u32>> {
        let mut trips = Vec::new();
        let begin = Instant::now();
        let mut now = begin;
        let mut free = on_the_way;
        while now < begin + WARM_UP + time {
            self.send(message, free, now)?;
            let warm = now >= begin + WARM_UP;
            (now, free) = self.receive(|trip| {
                if warm {
                    trips.push(u32::try_from(trip.as_nanos()).unwrap_or(u32::MAX));
                }
            })?;
        }
        while !self.unanswered.is_empty() {
            self.receive(|_| {})?;
        }
        Ok(trips)
    }

    /// Says goodbye, and waits until the server has closed the connection.
    fn close(mut self) -> io::Result<()> {
        self.socket.put(CLOSE, &[]);
        self.socket.flush()?;
        while self.socket.stream.read(&mut self.socket.input)? > 0 {}
        Ok(())
    }
}

/// Waits for a line of the input, or its end.
fn wait_for_line() -> io::Result<()> {
    io::stdin().read_line(&mut String::new())?;
    Ok(())
}

/// Loads all sessions at once, and gives the round trips of all, in nanoseconds, in rising order.
fn load_all(
    sessions: &mut [Session],
    message: &Message,
    on_the_way: usize,
    time: Duration,
) -> Vec<u32> {
    let start = Barrier::new(sessions.len());
    let mut trips = thread::scope(|scope| {
        let load = |session: &mut Session| {
            start.wait();
            session
                .load(message, on_the_way, time)
                .expect("a session that goes on")
        };
        let threads: Vec<_> = sessions
            .iter_mut()
            .map(|session| scope.spawn(move || load(session)))
            .collect();
        threads
            .into_iter()
            .flat_map(|thread| thread.join().expect("a session"))
            .collect::<Vec<u32>>()
    });
    trips.sort_unstable();
    trips
}

/// The round trip, in microseconds, below which so many hundredths of all are.
fn percentile(trips: &[u32], hundredths: usize) -> f64 {
    let place = trips.len() * hundredths / 100;
    trips.get(place).map_or(0.0, |&trip| f64::from(trip) / 1e3)
}

fn main() -> io::Result<()> {
    let words: Vec<String> = env::args().skip(1).collect();
    let [port, sessions, on_the_way, seconds, message, first @ ..] = &words[..] else {
        panic!("PORT SESSIONS ON_THE_WAY SECONDS MESSAGE [FIRST..]");
    };
    let port = port.parse().expect("a port");
    let sessions: usize = sessions.parse().expect("a number of sessions");
    let on_the_way = on_the_way.parse().expect("a number of messages");
    let seconds: u64 = seconds.parse().expect("a number of seconds");
    let message = Message::of_word(message);
    let first: Vec<Message> = first.iter().map(|word| Message::of_word(word)).collect();
    let mut open = (0..sessions)
        .map(|_| Session::open(port, &first))
        .collect::<io::Result<Vec<Session>>>()?;
    println!("open");
    wait_for_line()?;
    if seconds > 0 {
        let trips = load_all(
            &mut open,
            &message,
            on_the_way,
            Duration::from_secs(seconds),
        );
        println!(
            "{} {seconds} {:.1} {:.1}",
            trips.len(),
            percentile(&trips, 50),
            percentile(&trips, 99)
        );
        wait_for_line()?;
    }
    open.into_iter().try_for_each(Session::close)
}
