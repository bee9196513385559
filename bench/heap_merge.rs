//! What the program `merge_bench` is measured against: a k-way merge by a heap, written by hand in
//! plain Rust, over the same entries and with the same pieces.
//!
//! heap_merge ENTRIES WRITERS prints the processor's nanoseconds for the merge, its peak of memory, and
//! the pieces' number, bytes and checksum, and then what searches by halves and bare reads of pieces
//! take. It runs on Linux on machines of 64 bits.

use std::cmp::{Ordering, Reverse};
use std::collections::BinaryHeap;
use std::collections::binary_heap::PeekMut;

const BLOCK: u64 = 4096;

#[derive(Clone, Copy)]
struct Entry {
    at: u64,
    len: u64,
    physical: u64,
    stamp: u64,
    writer: u64,
}

#[derive(Clone, Copy)]
struct Piece {
    at: u64,
    len: u64,
    physical: u64,
    stamp: u64,
    writer: u64,
}

impl Piece {
    fn end(&self) -> u64 {
        self.at + self.len
    }

    fn joins(&self, next: &Piece) -> bool {
        self.end() == next.at
            && self.stamp == next.stamp
            && self.writer == next.writer
            && self.physical + self.len == next.physical
    }

    /// The piece's bytes from one place up to another.
    fn part(&self, from: u64, until: u64) -> Piece {
        Piece {
            at: from,
            len: until - from,
            physical: self.physical + (from - self.at),
            ..*self
        }
    }
}

/// A piece that the sweep is within, in the order of stamps and then of writers.
struct Active(Piece);

impl Active {
    fn key(&self) -> (u64, u64) {
        (self.0.stamp, self.0.writer)
    }
}

impl PartialEq for Active {
    fn eq(&self, other: &Active) -> bool {
        self.key() == other.key()
    }
}

impl Eq for Active {}

impl PartialOrd for Active {
    fn partial_cmp(&self, other: &Active) -> Option<Ordering> {
        Some(self.cmp(other))
    }
}

impl Ord for Active {
    fn cmp(&self, other: &Active) -> Ordering {
        self.key().cmp(&other.key())
    }
}

/// Adds a piece behind the others, or makes the last one longer.
fn extend(done: &mut Vec<Piece>, piece: Piece) {
    if let Some(last) = done.last_mut() {
        if last.joins(&piece) {
            last.len += piece.len;
            return;
        }
    }
    done.push(piece);
}

/// The entries of one writer as pieces. They go forward through the file.
fn of_writer(entries: &[Entry]) -> Vec<Piece> {
    let mut done = Vec::new();
    for e in entries {
        let piece = Piece {
            at: e.at,
            len: e.len,
            physical: e.physical,
            stamp: e.stamp,
            writer: e.writer,
        };
        extend(&mut done, piece);
    }
    done
}

/// All lists as one: a heap tells which piece begins next, and another which of the pieces that
/// cover a byte is the newest.
fn merge_all(lists: &[Vec<Piece>]) -> Vec<Piece> {
    let mut pending: BinaryHeap<Reverse<(u64, usize)>> = BinaryHeap::new();
    let mut taken = vec![0; lists.len()];
    for (i, list) in lists.iter().enumerate() {
        if let Some(piece) = list.first() {
            pending.push(Reverse((piece.at, i)));
        }
    }
    let mut active: BinaryHeap<Active> = BinaryHeap::new();
    let mut done = Vec::new();
    let mut from = 0;
    loop {
        while active.peek().is_some_and(|top| top.0.end() <= from) {
            active.pop();
        }
        if active.is_empty() {
            match pending.peek() {
                Some(Reverse((at, _))) => from = *at,
                None => return done,
            }
        }
        while let Some(mut head) = pending.peek_mut() {
            let Reverse((at, i)) = *head;
            if at > from {
                break;
            }
            active.push(Active(lists[i][taken[i]]));
            taken[i] += 1;
            match lists[i].get(taken[i]) {
                Some(next) => *head = Reverse((next.at, i)),
                None => {
                    PeekMut::pop(head);
                }
            }
        }
        if let Some(Active(winner)) = active.peek() {
            let mut until = winner.end();
            if let Some(Reverse((at, _))) = pending.peek() {
                until = until.min(*at);
            }
            extend(&mut done, winner.part(from, until));
            from = until;
        }
    }
}

fn entries_of(count: u64, writers: u64, writer: u64) -> Vec<Entry> {
    let mut entries = Vec::new();
    for row in 0..count.div_ceil(writers) {
        let block = row * writers + writer;
        if block < count {
            entries.push(Entry {
                at: block * BLOCK,
                len: BLOCK,
                physical: row * BLOCK,
                stamp: block + 1,
                writer,
            });
        }
    }
    entries
}

fn checksum(pieces: &[Piece]) -> u64 {
    let mut sum: u64 = 0xcbf2_9ce4_8422_2325;
    for p in pieces {
        for number in [p.at, p.len, p.physical, p.stamp, p.writer] {
            sum = (sum ^ number).wrapping_mul(0x100_0000_01b3);
        }
    }
    sum
}

#[repr(C)]
struct Timespec {
    seconds: i64,
    nanoseconds: i64,
}

unsafe extern "C" {
    fn clock_gettime(clock: i32, time: *mut Timespec) -> i32;
}

/// The nanoseconds of the processor that this thread has used.
fn processor_time() -> i64 {
    const THREAD_CPUTIME: i32 = 3;
    let mut time = Timespec {
        seconds: 0,
        nanoseconds: 0,
    };
    let status = unsafe { clock_gettime(THREAD_CPUTIME, &mut time) };
    assert_eq!(status, 0);
    time.seconds * 1_000_000_000 + time.nanoseconds
}

/// The most memory that the process has had so far, as Linux tells it.
fn peak() -> String {
    let status = std::fs::read_to_string("/proc/self/status").expect("the process's status");
    let line = status.lines().find_map(|line| line.strip_prefix("VmHWM:"));
    line.expect("a line VmHWM").trim().to_string()
}

/// The nanoseconds of 100000 searches by halves for the first piece of a read, at places that look like
/// chance within the first bytes of the file.
fn search_time(pieces: &[Piece], within: u64) -> i64 {
    let size = pieces.last().map_or(0, Piece::end);
    let places = size.min(within) - BLOCK + 1;
    let mut seed: u64 = 2009;
    let mut sum: usize = 0;
    let start = processor_time();
    for _ in 0..100_000 {
        seed = seed
            .wrapping_mul(6364136223846793005)
            .wrapping_add(1442695040888963407);
        let at = (seed >> 33) * 512 % places;
        sum += pieces.partition_point(|piece| piece.end() <= at);
    }
    std::hint::black_box(sum);
    processor_time() - start
}

/// The nanoseconds of 100000 reads of one piece, at places that look like chance. Each place is known
/// when the piece before was read, so that no two reads overlap.
fn read_time(pieces: &[Piece]) -> i64 {
    let mut seed: u64 = 2009;
    let start = processor_time();
    for _ in 0..100_000 {
        seed = seed
            .wrapping_mul(6364136223846793005)
            .wrapping_add(1442695040888963407);
        let piece = &pieces[(seed >> 33) as usize % pieces.len()];
        seed = seed.wrapping_add(piece.writer);
    }
    std::hint::black_box(seed);
    processor_time() - start
}

/// So many pieces one behind the other, each of 1 byte up to two blocks.
fn uneven(count: u64) -> Vec<Piece> {
    let mut seed: u64 = 1983;
    let mut at = 0;
    let mut pieces = Vec::new();
    for i in 0..count {
        seed = seed
            .wrapping_mul(6364136223846793005)
            .wrapping_add(1442695040888963407);
        let len = (seed >> 33) % (2 * BLOCK) + 1;
        pieces.push(Piece {
            at,
            len,
            physical: at,
            stamp: i + 1,
            writer: 0,
        });
        at += len;
    }
    pieces
}

fn main() {
    let words: Vec<u64> = std::env::args()
        .skip(1)
        .map(|word| word.parse().expect("a number"))
        .collect();
    let [count, writers] = words[..] else {
        panic!("heap_merge ENTRIES WRITERS");
    };
    let writers: Vec<Vec<Entry>> = (0..writers)
        .map(|writer| entries_of(count, writers, writer))
        .collect();
    let start = processor_time();
    let lists: Vec<Vec<Piece>> = writers.iter().map(|entries| of_writer(entries)).collect();
    let whole = merge_all(&lists);
    println!("merge_ns {}", processor_time() - start);
    println!("merge_peak {}", peak());
    println!("merge_pieces {}", whole.len());
    println!("merge_bytes {}", whole.iter().map(|p| p.len).sum::<u64>());
    println!("merge_checksum {}", checksum(&whole));
    println!("search_ns {}", search_time(&whole, 10_000 * BLOCK));
    println!("search_far_ns {}", search_time(&whole, u64::MAX));
    println!("read_far_ns {}", read_time(&whole));
    println!("search_uneven_ns {}", search_time(&uneven(count), u64::MAX));
}
