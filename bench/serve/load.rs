//! Clients and servers for a TCP relay, for `bench/serve` and `tests/hostile`. The standard library and epoll alone.
//!
//!     load servers            three servers on free ports of the loopback: it prints `once PORT`, `discard PORT` and
//!                             `echo PORT`, and serves until its standard input ends
//!     load rate PORT N S      N clients for S seconds: each connects, sends 64 bytes, and takes all up to the end, again
//!                             and again, from `once`
//!     load visits PORT N S    the same; it prints too how many seconds a half of the clients and 99 of 100 of them were
//!                             there at most, each from its connect to the end
//!     load bulk PORT N S      N connections that send as much as they can for S seconds, to `discard`
//!     load ping PORT N S      N connections that send 64 bytes and wait for them to come back, again and again, from `echo`
//!     load paced PORT N R S   R messages of 64 bytes a second for S seconds, at even distances, by turns over N connections
//!                             to `echo`; it prints too how many seconds after it was due a half of them and 99 of 100
//!                             were back at most
//!     load hold PORT N        N connections, each of which got 5 bytes back from `echo`; it prints `held`, and holds them
//!                             until its standard input ends
//!     load idle PORT N        N connections that send nothing; it prints `held`, and holds them until its standard input
//!                             ends
//!     load come PORT N        N connections as those of `rate`, each from a source of its own in 127.0.0.0/8
//!     load stall PORT S       one connection that sends 64 bytes and waits for them to come back, again and again for S
//!                             seconds, from `echo`; it prints how many there were and, in seconds, the longest wait,
//!                             and those that a half and 99 of 100 of them did not exceed
//!     load turns PORT PORT S  clients that come one after another, by turns at both ports, each as one of `rate`, for S
//!                             seconds; it prints of each port how many there were, in seconds the longest visit and
//!                             those that a half and 99 of 100 of them did not exceed, and how many took a millisecond
//!                             longer than a half of them
//!     load drip PORT N S      N clients that begin a PROXY header, send a byte of it a second and never end it; one
//!                             that is ended comes again, for S seconds. It prints how many were ended, the shortest
//!                             and the longest time in seconds that one of these was there, and how many went wrong
//!     load echo PORT          a server `echo` on that port of the loopback, until its standard input ends
//!
//! `rate`, `visits`, `bulk`, `ping`, `paced` and `come` print what was done (connections, bytes, messages), in how many seconds,
//! and how many connections went wrong.

use std::collections::VecDeque;
use std::fs::File;
use std::io::{ErrorKind, Read, Write};
use std::net::{Shutdown, TcpListener, TcpStream};
use std::os::fd::{AsRawFd, FromRawFd, RawFd};
use std::sync::atomic::{AtomicBool, Ordering::Relaxed};
use std::thread;
use std::time::{Duration, Instant};

const MESSAGE: [u8; 64] = [b'x'; 64];
const PART: usize = 131_072;
const LISTENER: u64 = u64::MAX;
const TIMER: u64 = u64::MAX;
const HERE: [u8; 4] = [127, 0, 0, 1];

// epoll, as Linux has it on x86-64

#[repr(C, packed)]
#[derive(Clone, Copy)]
struct Event {
    flags: u32,
    key: u64,
}

const READABLE: u32 = 1;
const WRITABLE: u32 = 4;
const ADD: i32 = 1;
const CHANGE: i32 = 3;
const INTERNET: i32 = 2;
const STREAM: i32 = 1;
const NONBLOCKING: i32 = 0o4000;
const IN_PROGRESS: i32 = 115;
const MONOTONIC: i32 = 1;

extern "C" {
    fn epoll_create1(flags: i32) -> i32;
    fn epoll_ctl(set: i32, what: i32, fd: i32, event: *mut Event) -> i32;
    fn epoll_wait(set: i32, events: *mut Event, most: i32, limit: i32) -> i32;
    fn socket(domain: i32, kind: i32, protocol: i32) -> i32;
    fn bind(fd: i32, address: *const u8, length: u32) -> i32;
    fn connect(fd: i32, address: *const u8, length: u32) -> i32;
    fn timerfd_create(clock: i32, flags: i32) -> i32;
    fn timerfd_settime(fd: i32, flags: i32, times: *const Times, before: *mut Times) -> i32;
}

/// When a timer goes off again and again, and first.
#[repr(C)]
struct Times {
    interval: [i64; 2],
    first: [i64; 2],
}

/// A timer that goes off again and again; what is read of it is how often it did.
fn timer(interval: Duration) -> File {
    let every = [interval.as_secs() as i64, i64::from(interval.subsec_nanos())];
    let times = Times { interval: every, first: every };
    unsafe {
        let fd = timerfd_create(MONOTONIC, NONBLOCKING);
        assert!(fd >= 0 && timerfd_settime(fd, 0, &times, std::ptr::null_mut()) == 0, "no timer");
        File::from_raw_fd(fd)
    }
}

struct Poll {
    set: i32,
    events: [Event; 256],
}

impl Poll {
    fn new() -> Poll {
        let set = unsafe { epoll_create1(0) };
        assert!(set >= 0, "no epoll");
        Poll { set, events: [Event { flags: 0, key: 0 }; 256] }
    }

    fn watch(&self, what: i32, fd: RawFd, flags: u32, key: u64) {
        let mut event = Event { flags, key };
        assert_eq!(unsafe { epoll_ctl(self.set, what, fd, &mut event) }, 0, "epoll_ctl");
    }

    /// The keys that are ready, within `limit` ms.
    fn wait(&mut self, limit: i32) -> Vec<u64> {
        let count = unsafe { epoll_wait(self.set, self.events.as_mut_ptr(), 256, limit) };
        self.events[..count.max(0) as usize].iter().map(|event| event.key).collect()
    }
}

// Servers

/// Sends back what comes; with `once` it closes after the first part.
fn echo(listener: TcpListener, once: bool) {
    listener.set_nonblocking(true).expect("a listener that does not wait");
    let mut poll = Poll::new();
    poll.watch(ADD, listener.as_raw_fd(), READABLE, LISTENER);
    let mut links: Vec<Option<TcpStream>> = Vec::new();
    let mut part = vec![0; PART];
    loop {
        for key in poll.wait(-1) {
            if key == LISTENER {
                while let Ok((link, _)) = listener.accept() {
                    let fd = link.as_raw_fd() as usize;
                    let _ = (link.set_nonblocking(true), link.set_nodelay(true));
                    links.resize_with(links.len().max(fd + 1), || None);
                    poll.watch(ADD, fd as i32, READABLE, fd as u64);
                    links[fd] = Some(link);
                }
                continue;
            }
            let place = &mut links[key as usize];
            let Some(link) = place else { continue };
            let is_over = match link.read(&mut part) {
                Ok(0) => true,
                Ok(count) => link.write_all(&part[..count]).is_err() || once,
                Err(error) => error.kind() != ErrorKind::WouldBlock,
            };
            if is_over {
                *place = None;
            }
        }
    }
}

/// Takes all up to the end, and then says how much it was.
fn discard(listener: TcpListener) {
    for link in listener.incoming() {
        let Ok(mut link) = link else { continue };
        thread::spawn(move || {
            let mut part = vec![0; 2 * PART];
            let mut total = 0u64;
            while let Ok(count @ 1..) = link.read(&mut part) {
                total += count as u64;
            }
            let _ = link.write_all(&total.to_le_bytes());
        });
    }
}

fn echo_at(port: u16) {
    let listener = TcpListener::bind(("127.0.0.1", port)).expect("a port that is free");
    thread::spawn(move || echo(listener, false));
    println!("ready");
    wait_for_end();
}

fn servers() {
    let servers: [(&str, fn(TcpListener)); 3] =
        [("once", |listener| echo(listener, true)), ("discard", discard), ("echo", |listener| echo(listener, false))];
    for (name, serve) in servers {
        let listener = TcpListener::bind("127.0.0.1:0").expect("a free port");
        println!("{name} {}", listener.local_addr().expect("its port").port());
        thread::spawn(move || serve(listener));
    }
    wait_for_end();
}

// Clients

fn open(port: u16) -> TcpStream {
    let link = TcpStream::connect(("127.0.0.1", port)).expect("a connection");
    let _ = link.set_nodelay(true);
    link
}

/// An address as the system takes it.
fn address(host: [u8; 4], port: u16) -> [u8; 16] {
    let mut address = [0u8; 16];
    address[0] = INTERNET as u8;
    address[2..4].copy_from_slice(&port.to_be_bytes());
    address[4..8].copy_from_slice(&host);
    address
}

/// Begins to connect from a source, and does not wait for it.
fn begin(port: u16, source: [u8; 4]) -> Option<TcpStream> {
    let address = address(HERE, port);
    unsafe {
        let fd = socket(INTERNET, STREAM | NONBLOCKING, 0);
        if fd < 0 {
            return None;
        }
        let link = TcpStream::from_raw_fd(fd);
        if source != HERE && bind(fd, self::address(source, 0).as_ptr(), 16) < 0 {
            return None;
        }
        let is_wrong = connect(fd, address.as_ptr(), 16) < 0 && std::io::Error::last_os_error().raw_os_error() != Some(IN_PROGRESS);
        let _ = link.set_nodelay(true);
        (!is_wrong).then_some(link)
    }
}

/// One client, between its connect and the end.
struct Visit {
    link: TcpStream,
    came: Instant,
    has_sent: bool,
    taken: usize,
}

/// Goes on with a visit; `Some` at its end, and whether it went well.
fn go_on(visit: &mut Visit, poll: &Poll, key: u64, part: &mut [u8]) -> Option<bool> {
    let step = if visit.has_sent { visit.link.read(part) } else { visit.link.write(&MESSAGE) };
    match step {
        Err(error) if error.kind() == ErrorKind::WouldBlock => None,
        Err(_) => Some(false),
        Ok(_) if !visit.has_sent => {
            visit.has_sent = true;
            poll.watch(CHANGE, visit.link.as_raw_fd(), READABLE, key);
            None
        }
        Ok(0) => Some(visit.taken == MESSAGE.len()),
        Ok(count) => {
            visit.taken += count;
            None
        }
    }
}

/// The seconds of each visit that went well, and how many went wrong.
fn come_and_go(port: u16, clients: usize, until: Instant) -> (Vec<f64>, u64) {
    let mut poll = Poll::new();
    let mut visits: Vec<Option<Visit>> = (0..clients).map(|_| None).collect();
    let (mut part, mut waits, mut wrong) = ([0; 4096], Vec::new(), 0);
    while Instant::now() < until {
        for (key, place) in visits.iter_mut().enumerate().filter(|(_, place)| place.is_none()) {
            let came = Instant::now();
            match begin(port, HERE) {
                Some(link) => {
                    poll.watch(ADD, link.as_raw_fd(), READABLE | WRITABLE, key as u64);
                    *place = Some(Visit { link, came, has_sent: false, taken: 0 });
                }
                None => wrong += 1,
            }
        }
        for key in poll.wait(10) {
            let place = &mut visits[key as usize];
            let Some(visit) = place else { continue };
            if let Some(is_good) = go_on(visit, &poll, key, &mut part) {
                if is_good { waits.push(visit.came.elapsed().as_secs_f64()) } else { wrong += 1 }
                *place = None;
            }
        }
    }
    (waits, wrong)
}

/// The number of a source in 127.0.0.0/8.
fn source(number: usize) -> [u8; 4] {
    [127, 1 + (number >> 16) as u8, (number >> 8) as u8, number as u8]
}

/// So many connections, 64 at a time, each from a source of its own.
fn come(port: u16, count: usize) {
    let mut poll = Poll::new();
    let mut visits: Vec<Option<Visit>> = (0..64.min(count)).map(|_| None).collect();
    let (mut part, mut begun, mut done, mut wrong) = ([0; 4096], 0, 0, 0);
    let start = Instant::now();
    while done + wrong < count as u64 {
        for (key, place) in visits.iter_mut().enumerate().filter(|(_, place)| place.is_none()) {
            if begun < count {
                let link = begin(port, source(begun)).expect("a connection");
                poll.watch(ADD, link.as_raw_fd(), READABLE | WRITABLE, key as u64);
                *place = Some(Visit { link, came: Instant::now(), has_sent: false, taken: 0 });
                begun += 1;
            }
        }
        for key in poll.wait(10) {
            let place = &mut visits[key as usize];
            let Some(visit) = place else { continue };
            if let Some(is_good) = go_on(visit, &poll, key, &mut part) {
                if is_good { done += 1 } else { wrong += 1 }
                *place = None;
            }
        }
    }
    report(done, start, wrong);
}

/// The seconds of each visit of all clients, how many went wrong, and when the first came.
fn visits(port: u16, clients: usize, seconds: f64) -> (Vec<f64>, u64, Instant) {
    let begun = Instant::now();
    let until = begun + Duration::from_secs_f64(seconds);
    let parts: Vec<(Vec<f64>, u64)> = thread::scope(|scope| {
        let threads = [0, 1].map(|part| scope.spawn(move || come_and_go(port, (clients + part) / 2, until)));
        threads.into_iter().map(|thread| thread.join().expect("a thread that ends")).collect()
    });
    let wrong = parts.iter().map(|(_, wrong)| wrong).sum();
    (parts.into_iter().flat_map(|(waits, _)| waits).collect(), wrong, begun)
}

fn rate(port: u16, clients: usize, seconds: f64) {
    let (waits, wrong, begun) = visits(port, clients, seconds);
    report(waits.len() as u64, begun, wrong);
}

fn timed_rate(port: u16, clients: usize, seconds: f64) {
    let (mut waits, wrong, begun) = visits(port, clients, seconds);
    report_waits(&mut waits, begun, wrong);
}

/// Sends until it is told to stop; how many bytes, and whether all of them arrived.
fn pour(port: u16, stop: &AtomicBool) -> (u64, bool) {
    let (mut link, part, mut total) = (open(port), vec![7; PART], 0u64);
    while !stop.load(Relaxed) {
        match link.write(&part) {
            Ok(count) => total += count as u64,
            Err(_) => return (total, false),
        }
    }
    let mut answer = [0; 8];
    let is_right = link.shutdown(Shutdown::Write).is_ok() && link.read_exact(&mut answer).is_ok();
    (total, is_right && u64::from_le_bytes(answer) == total)
}

fn bulk(port: u16, links: usize, seconds: f64) {
    let stop = AtomicBool::new(false);
    let begun = Instant::now();
    let sent: Vec<(u64, bool)> = thread::scope(|scope| {
        let threads: Vec<_> = (0..links).map(|_| scope.spawn(|| pour(port, &stop))).collect();
        thread::sleep(Duration::from_secs_f64(seconds));
        stop.store(true, Relaxed);
        threads.into_iter().map(|thread| thread.join().expect("a thread that ends")).collect()
    });
    let wrong = sent.iter().filter(|(_, is_right)| !is_right).count();
    report(sent.iter().map(|(total, _)| total).sum(), begun, wrong as u64);
}

fn ping(port: u16, links: usize, seconds: f64) {
    let mut poll = Poll::new();
    let mut links: Vec<(TcpStream, usize)> = (0..links).map(|_| (open(port), 0)).collect();
    for (key, (link, _)) in links.iter_mut().enumerate() {
        link.set_nonblocking(true).expect("a link that does not wait");
        poll.watch(ADD, link.as_raw_fd(), READABLE, key as u64);
        link.write_all(&MESSAGE).expect("the first message");
    }
    let (mut part, mut done, mut wrong) = ([0; 64], 0u64, 0u64);
    let begun = Instant::now();
    let until = begun + Duration::from_secs_f64(seconds);
    while Instant::now() < until && wrong == 0 {
        for key in poll.wait(100) {
            let (link, taken) = &mut links[key as usize];
            match link.read(&mut part) {
                Ok(count @ 1..) => {
                    *taken += count;
                    if *taken >= MESSAGE.len() {
                        *taken -= MESSAGE.len();
                        done += 1;
                        wrong += u64::from(link.write_all(&MESSAGE).is_err());
                    }
                }
                Err(error) if error.kind() == ErrorKind::WouldBlock => {}
                _ => wrong += 1,
            }
        }
    }
    report(done, begun, wrong);
}

/// A link of `paced`, and when each of its messages that are not back yet was due.
struct Paced {
    link: TcpStream,
    taken: usize,
    due: VecDeque<Instant>,
}

impl Paced {
    /// Takes what is back; whether the link is well.
    fn take(&mut self, part: &mut [u8], waits: &mut Vec<f64>) -> bool {
        match self.link.read(part) {
            Ok(count @ 1..) => {
                self.taken += count;
                while self.taken >= MESSAGE.len() {
                    self.taken -= MESSAGE.len();
                    waits.extend(self.due.pop_front().map(|due| due.elapsed().as_secs_f64()));
                }
                true
            }
            Err(error) => error.kind() == ErrorKind::WouldBlock,
            Ok(_) => false,
        }
    }
}

fn paced(port: u16, links: usize, rate: f64, seconds: f64) {
    let (mut poll, interval) = (Poll::new(), Duration::from_secs_f64(1.0 / rate));
    let mut links: Vec<Paced> = (0..links).map(|_| Paced { link: open(port), taken: 0, due: VecDeque::new() }).collect();
    for (key, paced) in links.iter().enumerate() {
        paced.link.set_nonblocking(true).expect("a link that does not wait");
        poll.watch(ADD, paced.link.as_raw_fd(), READABLE, key as u64);
    }
    let (mut part, mut waits, mut sent, mut wrong) = ([0; 4096], Vec::new(), 0, 0u64);
    let begun = Instant::now();
    let (mut clock, until) = (timer(interval), begun + Duration::from_secs_f64(seconds));
    poll.watch(ADD, clock.as_raw_fd(), READABLE, TIMER);
    while Instant::now() < until && wrong == 0 {
        for key in poll.wait(100) {
            if key != TIMER {
                wrong += u64::from(!links[key as usize].take(&mut part, &mut waits));
                continue;
            }
            let mut times = [0; 8];
            let _ = clock.read(&mut times);
            for _ in 0..u64::from_ne_bytes(times) {
                sent += 1;
                let at = sent % links.len();
                let paced = &mut links[at];
                paced.due.push_back(begun + interval * sent as u32);
                wrong += u64::from(paced.link.write_all(&MESSAGE).is_err());
            }
        }
    }
    report_waits(&mut waits, begun, wrong);
}

fn stall(port: u16, seconds: f64) {
    let (mut link, mut answer, mut waits) = (open(port), [0; 64], Vec::new());
    let until = Instant::now() + Duration::from_secs_f64(seconds);
    while Instant::now() < until {
        let sent = Instant::now();
        link.write_all(&MESSAGE).and_then(|()| link.read_exact(&mut answer)).expect("an answer");
        waits.push(sent.elapsed().as_secs_f64());
    }
    println!("{}", summed(&mut waits));
}

/// How many waits there were, the longest, and those that a half and 99 of 100 of them did not exceed. Sorts them.
fn summed(waits: &mut [f64]) -> String {
    waits.sort_by(f64::total_cmp);
    let wait = |part: usize| waits[(waits.len() - 1) * part / 100];
    format!("{} {:.6} {:.6} {:.6}", waits.len(), wait(100), wait(50), wait(99))
}

/// One client from its connect to the end.
fn visit(port: u16) {
    let (mut link, mut answer) = (open(port), Vec::new());
    link.write_all(&MESSAGE).and_then(|()| link.read_to_end(&mut answer)).expect("an answer");
    assert_eq!(answer, MESSAGE, "what comes back");
}

fn turns(ports: [u16; 2], seconds: f64) {
    let mut waits = [Vec::new(), Vec::new()];
    let until = Instant::now() + Duration::from_secs_f64(seconds);
    while Instant::now() < until {
        for (port, waits) in ports.iter().zip(&mut waits) {
            let begun = Instant::now();
            visit(*port);
            waits.push(begun.elapsed().as_secs_f64());
        }
    }
    for waits in &mut waits {
        let sum = summed(waits);
        let limit = waits[waits.len() / 2] + 0.001;
        println!("{sum} {}", waits.iter().filter(|&&wait| wait > limit).count());
    }
}

/// Clients that begin a header and never end it.
struct Drips {
    poll: Poll,
    places: Vec<Option<(TcpStream, Instant)>>,
    /// When the next byte of a place is due, for the client that came there at that moment, and whether it has begun.
    due: VecDeque<(Instant, usize, Instant, bool)>,
    ended: u64,
    wrong: u64,
    shortest: Duration,
    longest: Duration,
}

impl Drips {
    /// Lets a client come to each free place, some at a time, so that the queue of the listener has room.
    fn come(&mut self, port: u16) {
        let free: Vec<usize> = (0..self.places.len()).filter(|&key| self.places[key].is_none()).take(100).collect();
        for key in free {
            let (now, link) = (Instant::now(), begin(port, HERE).expect("a connection"));
            self.poll.watch(ADD, link.as_raw_fd(), READABLE, key as u64);
            self.due.push_back((now, key, now, false));
            self.places[key] = Some((link, now));
        }
    }

    /// Sends each byte that is due.
    fn send(&mut self) {
        let now = Instant::now();
        while let Some(&(at, key, came, has_begun)) = self.due.front() {
            if at > now {
                return;
            }
            self.due.pop_front();
            if let Some((link, since)) = &mut self.places[key] {
                if *since == came {
                    // (what has ended is seen by reading; what is not connected yet begins a second later)
                    let text: &[u8] = if has_begun { b"1" } else { b"PROXY TCP4 1" };
                    let is_sent = link.write(text).is_ok();
                    self.due.push_back((now + Duration::from_secs(1), key, came, has_begun || is_sent));
                }
            }
        }
    }

    /// Takes the end of a client.
    fn take(&mut self, key: usize) {
        let Some((link, came)) = &mut self.places[key] else { return };
        match link.read(&mut [0]) {
            Err(error) if error.kind() == ErrorKind::WouldBlock => return,
            Err(error) if error.kind() != ErrorKind::ConnectionReset => self.wrong += 1,
            Ok(count @ 1..) => self.wrong += count as u64,
            _ => {
                self.ended += 1;
                self.shortest = self.shortest.min(came.elapsed());
                self.longest = self.longest.max(came.elapsed());
            }
        }
        self.places[key] = None;
    }
}

fn drip(port: u16, count: usize, seconds: f64) {
    let places = (0..count).map(|_| None).collect();
    let (due, shortest, longest) = (VecDeque::new(), Duration::MAX, Duration::ZERO);
    let mut drips = Drips { poll: Poll::new(), places, due, ended: 0, wrong: 0, shortest, longest };
    let until = Instant::now() + Duration::from_secs_f64(seconds);
    while Instant::now() < until {
        drips.come(port);
        drips.send();
        for key in drips.poll.wait(5) {
            drips.take(key as usize);
        }
    }
    let Drips { ended, wrong, shortest, longest, .. } = drips;
    println!("{ended} {:.6} {:.6} {wrong}", shortest.as_secs_f64(), longest.as_secs_f64());
}

fn idle(port: u16, count: usize) {
    let links: Vec<TcpStream> = (0..count).map(|_| open(port)).collect();
    println!("held");
    wait_for_end();
    drop(links);
}

fn hold(port: u16, count: usize) {
    let links: Vec<TcpStream> = (0..count)
        .map(|_| {
            let (mut link, mut answer) = (open(port), [0; 5]);
            link.write_all(b"hello").and_then(|()| link.read_exact(&mut answer)).expect("an answer");
            link
        })
        .collect();
    println!("held");
    wait_for_end();
    drop(links);
}

fn report(done: u64, begun: Instant, wrong: u64) {
    println!("{done} {:.6} {wrong}", begun.elapsed().as_secs_f64());
}

/// The same, and how many seconds a half of them and 99 of 100 of them took at most.
fn report_waits(waits: &mut [f64], begun: Instant, wrong: u64) {
    let seconds = begun.elapsed().as_secs_f64();
    waits.sort_by(f64::total_cmp);
    let wait = |part: usize| waits.get(waits.len().saturating_sub(1) * part / 100).copied().unwrap_or(0.0);
    println!("{} {seconds:.6} {wrong} {:.6} {:.6}", waits.len(), wait(50), wait(99));
}

fn wait_for_end() {
    let _ = std::io::stdin().read_to_end(&mut Vec::new());
}

fn main() {
    let words: Vec<String> = std::env::args().skip(1).collect();
    let number = |at: usize| words.get(at).and_then(|word| word.parse::<f64>().ok()).expect("a number");
    let (port, count) = (|| number(1) as u16, || number(2) as usize);
    match words.first().map(String::as_str) {
        Some("servers") => servers(),
        Some("rate") => rate(port(), count(), number(3)),
        Some("visits") => timed_rate(port(), count(), number(3)),
        Some("bulk") => bulk(port(), count(), number(3)),
        Some("ping") => ping(port(), count(), number(3)),
        Some("paced") => paced(port(), count(), number(3), number(4)),
        Some("hold") => hold(port(), count()),
        Some("idle") => idle(port(), count()),
        Some("come") => come(port(), count()),
        Some("stall") => stall(port(), number(2)),
        Some("turns") => turns([port(), count() as u16], number(3)),
        Some("drip") => drip(port(), count(), number(3)),
        Some("echo") => echo_at(port()),
        _ => panic!("servers, rate, visits, bulk, ping, paced, hold, idle, come, stall, turns, drip or echo"),
    }
}
