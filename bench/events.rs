//! Notes as events beside notes as lines: events LINES_SOCKET HTTP_SOCKET READERS [ROUNDS] [SECONDS]
//! The readers count notes and do nothing else, one thread for all; a producer sends 64 lines at a time. Prints the notes a second of each
//! round by either way, and the middle ratio. The subject is a Publish, `s`.
use std::io::{Read, Write};
use std::os::fd::AsRawFd;
use std::os::unix::net::UnixStream;
use std::sync::Arc;
use std::sync::atomic::{AtomicBool, AtomicU64, Ordering::Relaxed};
use std::time::{Duration, Instant};

#[repr(C)]
struct PollFd { fd: i32, events: i16, ready: i16 }
unsafe extern "C" { fn poll(fds: *mut PollFd, count: u64, ms: i32) -> i32; }

/// Joins, and has read what stands before the first note.
fn joined(path: &str, request: &[u8], end: &[u8]) -> UnixStream {
    let mut stream = UnixStream::connect(path).unwrap();
    stream.write_all(request).unwrap();
    let (mut head, mut byte) = (Vec::new(), [0]);
    while !head.ends_with(end) || !head.windows(6).any(|word| word.eq_ignore_ascii_case(b"joined")) {
        assert!(stream.read(&mut byte).unwrap() > 0, "it was closed");
        head.push(byte[0]);
    }
    stream
}

/// Counts the LFs that come, until it is told to stop.
fn count(mut streams: Vec<UnixStream>, lines: &AtomicU64, stop: &AtomicBool) {
    let mut fds: Vec<_> = streams.iter().map(|s| PollFd { fd: s.as_raw_fd(), events: 1, ready: 0 }).collect();
    let mut bytes = vec![0; 1 << 16];
    while !stop.load(Relaxed) {
        if unsafe { poll(fds.as_mut_ptr(), fds.len() as u64, 50) } <= 0 { continue; }
        for (stream, fd) in streams.iter_mut().zip(&fds) {
            if fd.ready == 0 { continue; }
            let len = stream.read(&mut bytes).unwrap();
            assert!(len > 0, "it was closed");
            lines.fetch_add(bytes[..len].iter().filter(|byte| **byte == b'\n').count() as u64, Relaxed);
        }
    }
}

/// The notes a second that these readers count, each of so many lines.
fn round(lines_path: &str, streams: Vec<UnixStream>, each: u64, seconds: f64) -> f64 {
    let (lines, stop) = (Arc::new(AtomicU64::new(0)), Arc::new(AtomicBool::new(false)));
    let reading = { let (lines, stop) = (lines.clone(), stop.clone()); std::thread::spawn(move || count(streams, &lines, &stop)) };
    let mut producer = UnixStream::connect(lines_path).unwrap();
    let batch: Vec<u8> = (0..64).flat_map(|i| format!("PUB s item-{i:08}-abc\n").into_bytes()).collect();
    let (start, mut bytes) = (Instant::now(), vec![0; 1 << 16]);
    while start.elapsed().as_secs_f64() < seconds {
        producer.write_all(&batch).unwrap();
        let mut answers = 0;
        while answers < 64 { let len = producer.read(&mut bytes).unwrap(); answers += bytes[..len].iter().filter(|byte| **byte == b'\n').count(); }
    }
    let notes = lines.load(Relaxed) as f64 / each as f64 / start.elapsed().as_secs_f64();
    stop.store(true, Relaxed);
    reading.join().unwrap();
    // what still waits for these readers goes with them
    std::thread::sleep(Duration::from_millis(300));
    notes
}

fn main() {
    let words: Vec<String> = std::env::args().collect();
    let (lines, http, readers) = (&words[1], &words[2], words[3].parse::<usize>().unwrap());
    let rounds = words.get(4).map_or(7, |word| word.parse().unwrap());
    let seconds = words.get(5).map_or(1.5, |word| word.parse().unwrap());
    let mut ratios = Vec::new();
    for _ in 0..rounds {
        let by_lines = (0..readers).map(|_| joined(lines, b"SUB s BUFFER DELAY\n", b"\n")).collect();
        let as_lines = round(lines, by_lines, 1, seconds);
        let by_events = (0..readers).map(|_| joined(http, b"GET /subjects/s HTTP/1.1\r\nHost: x\r\n\r\n", b"\n\n")).collect();
        let as_events = round(lines, by_events, 4, seconds);
        println!("{readers} readers: {as_lines:.0} notes/s as lines, {as_events:.0} as events: {:.2}", as_events / as_lines);
        ratios.push(as_events / as_lines);
    }
    ratios.sort_by(f64::total_cmp);
    println!("{readers} readers: the middle ratio {:.2}, from {:.2} to {:.2}", ratios[rounds / 2], ratios[0], ratios[rounds - 1]);
}
