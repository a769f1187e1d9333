//! The ends: the example's endpoint, Linux in a network namespace of its own, and programs that have a TCP in them.
use std::collections::VecDeque;
use std::io::{self, Read, Write};
use std::iter::from_fn;
use std::net::{Ipv4Addr, Shutdown, TcpListener, TcpStream};
use std::os::fd::{AsRawFd, FromRawFd, OwnedFd};
use std::os::unix::net::{UnixDatagram, UnixStream};
use std::process::{Child, Command, Stdio};
use std::sync::mpsc::{channel, Receiver, Sender};
use std::thread;

use net_base::time::Instant;

use crate::os::Tun;
use crate::tcp::{Endpoint, State};
use crate::wire::{Ends, Segment};

/// The addresses of the end that opens, and of the one that listens.
pub const ADDRESSES: [[u8; 4]; 2] = [[10, 77, 0, 1], [10, 77, 0, 2]];
const PORTS: [u16; 2] = [40_000, 7_000];

unsafe extern "C" {
    fn unshare(flags: i32) -> i32;
    fn socketpair(domain: i32, kind: i32, protocol: i32, files: *mut [i32; 2]) -> i32;
    fn setsockopt(file: i32, level: i32, name: i32, value: *const u8, len: u32) -> i32;
}
const CLONE_NEWNET: i32 = 0x4000_0000;
const AF_UNIX: i32 = 1;
const SOCK_SEQPACKET: i32 = 5;
const IPPROTO_TCP: i32 = 6;
const TCP_CONGESTION: i32 = 13;

pub fn now() -> Instant {
    Instant::from(std::time::Instant::now())
}

/// One end of a connection, and the program that uses it.
pub trait End {
    /// Reads the next packet that it has sent.
    fn packet(&mut self, into: &mut [u8]) -> Option<usize>;
    /// Hands it a packet. Returns false if it can't take one now.
    fn deliver(&mut self, packet: &[u8]) -> bool;
    /// Reads bytes of the stream that have come: none at its end.
    fn read(&mut self, into: &mut [u8]) -> Option<usize>;
    /// Sends as many of these bytes as there is room for.
    fn write(&mut self, bytes: &[u8]) -> usize;
    fn close(&mut self);
    /// Lets it do what is due.
    fn turn(&mut self) {}
    fn expires_at(&self) -> Option<Instant> {
        None
    }
    /// The descriptors on which packets and bytes come, if there are any.
    fn files(&self) -> Vec<i32>;
    /// How many segments it refused, for more than N runs, and the most that it held.
    fn refused(&self) -> (u64, usize) {
        (0, 0)
    }
}

fn some(result: io::Result<usize>) -> Option<usize> {
    match result {
        Err(error) if error.kind() == io::ErrorKind::WouldBlock => None,
        // A reset: the stream ends too early, which the reader sees.
        other => Some(other.unwrap_or(0)),
    }
}

struct Example<const N: usize> {
    endpoint: Endpoint<N>,
    out: VecDeque<Vec<u8>>,
}

impl<const N: usize> End for Example<N> {
    fn packet(&mut self, into: &mut [u8]) -> Option<usize> {
        let packet = self.out.pop_front()?;
        into[..packet.len()].copy_from_slice(&packet);
        Some(packet.len())
    }

    fn deliver(&mut self, packet: &[u8]) -> bool {
        if let Some((from, segment)) = Segment::parse(packet, self.endpoint.ends.here) {
            self.out.extend(self.endpoint.take(from, &segment, now()));
        }
        true
    }

    fn read(&mut self, into: &mut [u8]) -> Option<usize> {
        let is_over =
            self.endpoint.receiving.receiver().has_read_all() || self.endpoint.state == State::Reset;
        let count = self.endpoint.receiving.read(into);
        Some(count).filter(|count| *count > 0 || is_over)
    }

    fn write(&mut self, bytes: &[u8]) -> usize {
        self.endpoint.sending.write(bytes)
    }

    fn close(&mut self) {
        self.endpoint.sending.close();
    }

    fn turn(&mut self) {
        let now = now();
        self.out.extend(from_fn(|| self.endpoint.next_packet(now)));
    }

    fn expires_at(&self) -> Option<Instant> {
        self.endpoint.sending.expires_at()
    }

    fn files(&self) -> Vec<i32> {
        vec![]
    }

    fn refused(&self) -> (u64, usize) {
        (self.endpoint.counts.refused, self.endpoint.counts.most_held)
    }
}

/// The endpoint of the example, whose receiver holds at most `N` runs.
fn example<const N: usize>(listens: bool, seed: u64, capacity: usize) -> Box<dyn End> {
    let end = |it: bool| (ADDRESSES[usize::from(it)], PORTS[usize::from(it)]);
    let there = if listens { ([0; 4], 0) } else { end(true) };
    let ends = Ends { here: end(listens), there };
    // The own sequence numbers wrap soon.
    let initial = u32::MAX - (seed as u32 % 1_000) * 100;
    let endpoint = Endpoint::<N>::new(ends, listens, initial, capacity);
    Box::new(Example { endpoint, out: VecDeque::new() })
}

struct Linux {
    tun: Tun,
    comes: Receiver<TcpStream>,
    stream: Option<TcpStream>,
}

impl Linux {
    fn stream(&mut self) -> Option<&mut TcpStream> {
        if self.stream.is_none() {
            self.stream = self.comes.try_recv().ok();
        }
        self.stream.as_mut()
    }
}

impl End for Linux {
    fn packet(&mut self, into: &mut [u8]) -> Option<usize> {
        self.tun.receive(into)
    }

    fn deliver(&mut self, packet: &[u8]) -> bool {
        self.tun.send(packet);
        true
    }

    fn read(&mut self, into: &mut [u8]) -> Option<usize> {
        some(self.stream()?.read(into))
    }

    fn write(&mut self, bytes: &[u8]) -> usize {
        self.stream().map_or(0, |stream| stream.write(bytes).unwrap_or(0))
    }

    fn close(&mut self) {
        let _closed_before = self.stream().map(|stream| stream.shutdown(Shutdown::Write));
    }

    fn files(&self) -> Vec<i32> {
        self.stream.iter().map(AsRawFd::as_raw_fd).chain([self.tun.as_raw_fd()]).collect()
    }
}

/// Makes a namespace for this thread, and what is in it, and then a connection.
fn live(
    listens: bool,
    control: &str,
    tun: &Sender<io::Result<Tun>>,
    stream: &Sender<TcpStream>,
) -> io::Result<()> {
    // SAFETY: the flag is the kernel's.
    if unsafe { unshare(CLONE_NEWNET) } != 0 {
        return Err(io::Error::last_os_error());
    }
    let here = Ipv4Addr::from(ADDRESSES[usize::from(listens)]);
    let open = Tun::open("tun0")?;
    // Once the device is open: one that comes up before drops packets for a while.
    let words = format!("ip link set lo up && ip address add {here}/24 dev tun0 && ip link set tun0 up");
    if !Command::new("sh").args(["-c", &words]).status()?.success() {
        return Err(io::Error::other("no TUN device"));
    }
    let choose = |file: i32| {
        // SAFETY: the name is lent for reading.
        let status =
            unsafe { setsockopt(file, IPPROTO_TCP, TCP_CONGESTION, control.as_ptr(), control.len() as u32) };
        if status == 0 {
            Ok(())
        } else {
            Err(io::Error::other(format!("no congestion control {control}")))
        }
    };
    let listener = listens.then(|| TcpListener::bind((here, PORTS[1]))).transpose()?;
    // What listens does so before a packet comes.
    let _is_gone = tun.send(Ok(open));
    let connection = match listener {
        Some(listener) => listener.accept()?.0,
        None => TcpStream::connect((Ipv4Addr::from(ADDRESSES[1]), PORTS[1]))?,
    };
    choose(connection.as_raw_fd())?;
    connection.set_nodelay(true)?;
    connection.set_nonblocking(true)?;
    let _is_gone = stream.send(connection);
    Ok(())
}

/// Linux, with a congestion control that is named.
fn linux(listens: bool, control: &'static str) -> io::Result<Box<dyn End>> {
    let ((tun_goes, tun_comes), (goes, comes)) = (channel(), channel());
    thread::spawn(move || {
        if let Err(error) = live(listens, control, &tun_goes, &goes) {
            let _is_gone = tun_goes.send(Err(error));
        }
    });
    let tun = tun_comes.recv().map_err(io::Error::other)??;
    Ok(Box::new(Linux { tun, comes, stream: None }))
}

struct Program {
    child: Child,
    packets: UnixDatagram,
    stream: UnixStream,
}

impl End for Program {
    fn packet(&mut self, into: &mut [u8]) -> Option<usize> {
        self.packets.recv(into).ok().filter(|len| *len > 0)
    }

    fn deliver(&mut self, packet: &[u8]) -> bool {
        some(self.packets.send(packet)).is_some()
    }

    fn read(&mut self, into: &mut [u8]) -> Option<usize> {
        some(self.stream.read(into))
    }

    fn write(&mut self, bytes: &[u8]) -> usize {
        self.stream.write(bytes).unwrap_or(0)
    }

    fn close(&mut self) {
        let _closed_before = self.stream.shutdown(Shutdown::Write);
    }

    fn files(&self) -> Vec<i32> {
        vec![self.packets.as_raw_fd(), self.stream.as_raw_fd()]
    }
}

impl Drop for Program {
    fn drop(&mut self) {
        let _ended = self.child.kill();
        let _status = self.child.wait();
    }
}

/// A program that the script has built: lwIP, or netstack.
fn program(name: &str, listens: bool) -> io::Result<Box<dyn End>> {
    let mut files = [0; 2];
    // SAFETY: two descriptors are lent for writing, which are then owned once.
    let (packets, its) = unsafe {
        if socketpair(AF_UNIX, SOCK_SEQPACKET, 0, &mut files) != 0 {
            return Err(io::Error::last_os_error());
        }
        (UnixDatagram::from_raw_fd(files[0]), OwnedFd::from_raw_fd(files[1]))
    };
    let (stream, bytes) = UnixStream::pair()?;
    packets.set_nonblocking(true)?;
    stream.set_nonblocking(true)?;
    let folder = std::env::var("PEERS_PROGRAMS").map_err(io::Error::other)?;
    let child = Command::new(std::path::Path::new(&folder).join(name))
        .arg(if listens { "listen" } else { "open" })
        .stdin(Stdio::from(its))
        .stdout(Stdio::from(OwnedFd::from(bytes)))
        .spawn()?;
    Ok(Box::new(Program { child, packets, stream }))
}

/// Whose TCP an end is.
#[derive(Clone, Copy, PartialEq)]
pub enum Kind {
    /// The example's, with a capacity of each buffer, and N.
    Example(usize, usize),
    /// Linux with this congestion control.
    Linux(&'static str),
    Program(&'static str),
}

impl Kind {
    pub fn start(self, listens: bool, seed: u64) -> io::Result<Box<dyn End>> {
        match self {
            Kind::Example(capacity, 256) => Ok(example::<256>(listens, seed, capacity)),
            Kind::Example(capacity, 128) => Ok(example::<128>(listens, seed, capacity)),
            Kind::Example(capacity, 64) => Ok(example::<64>(listens, seed, capacity)),
            Kind::Example(capacity, _) => Ok(example::<32>(listens, seed, capacity)),
            Kind::Linux(control) => linux(listens, control),
            Kind::Program(name) => program(name, listens),
        }
    }

    pub fn name(self) -> String {
        match self {
            Kind::Example(..) => "endpoint".into(),
            Kind::Linux(control) => format!("Linux ({control})"),
            Kind::Program(name) => name.into(),
        }
    }
}
