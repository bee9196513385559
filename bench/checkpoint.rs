//! What the program `plfs` is measured against: its work done by hand in plain Rust, with the same files, names and syncs.
//!
//! checkpoint write FOLDER N           a checkpoint of N writers in 32 rounds, written and read back with every block compared
//! checkpoint make FOLDER W E          a container of W writers and E strided entries, whose logs are holes
//! checkpoint open FOLDER              its index droppings read and merged by a heap, in order of logical offsets
//! checkpoint flat FOLDER              the pieces of its newest flattened index, read into a list
//! checkpoint refresh FOLDER K R       a reader that R times takes in K entries of a new writer, over blocks that it has
//!
//! FOLDER is what `plfs` takes as ROOT, and the container in it is `f`. Each prints the seconds that it took, `open` and `flat` the
//! pieces, and `refresh` the entries that came and the seconds of the refreshes alone.
//! It runs on Unix.

use std::collections::{BinaryHeap, HashMap};
use std::fs::{self, File, OpenOptions};
use std::io::{self, Error, ErrorKind, Result};
use std::os::unix::fs::FileExt;
use std::path::{Path, PathBuf};
use std::time::Instant;
use std::{env, process};

const ROUNDS: u64 = 32;
const BLOCK: usize = 47008;
const PENDING: usize = 64;
const FOLDERS: u64 = 32;
const FIRST_ID: u64 = (1 << 32) + 1;
const ENTRY: usize = 40;
const READ: usize = 4096 * ENTRY;
const FLAT_READ: usize = 1 << 20;
const FLAT_HEAD: usize = 24;
const COVER: usize = 32;
const STRIDE: u64 = 4096;
/// From one block that is written anew to the next, in blocks.
const FAR: u64 = 997;

#[derive(Clone, Copy, PartialEq, Eq, PartialOrd, Ord)]
struct Entry {
    at: u64,
    len: u64,
    physical: u64,
    stamp: u64,
    writer: u64,
}

impl Entry {
    fn bytes(&self) -> [u8; ENTRY] {
        let mut bytes = [0; ENTRY];
        let fields = [self.at, self.len, self.physical, self.stamp, self.writer];
        for (place, field) in bytes.chunks_exact_mut(8).zip(fields) {
            place.copy_from_slice(&field.to_le_bytes());
        }
        bytes
    }

    fn read(bytes: &[u8]) -> Entry {
        let field = |k: usize| u64::from_le_bytes(bytes[8 * k..8 * k + 8].try_into().unwrap());
        Entry { at: field(0), len: field(1), physical: field(2), stamp: field(3), writer: field(4) }
    }
}

fn wrong(what: &str) -> Error {
    Error::new(ErrorKind::InvalidData, what.to_string())
}

fn sync_folder(folder: &Path) -> Result<()> {
    File::open(folder)?.sync_all()
}

/// A new file whose name is synced.
fn new_file(folder: &Path, name: &str) -> Result<File> {
    let file = OpenOptions::new().read(true).write(true).create_new(true).open(folder.join(name))?;
    sync_folder(folder)?;
    Ok(file)
}

fn new_folder(above: &Path, name: &str) -> Result<PathBuf> {
    let folder = above.join(name);
    match fs::create_dir(&folder) {
        Ok(()) => sync_folder(above)?,
        Err(error) if error.kind() == ErrorKind::AlreadyExists => {}
        Err(error) => return Err(error),
    }
    Ok(folder)
}

/// The mark of a first mount, and an empty container.
fn new_container(root: &Path) -> Result<PathBuf> {
    let marks = new_folder(&new_folder(root, ".plfs")?, "mounts")?;
    new_file(&marks, "1")?;
    let aside = new_folder(root, ".new.0")?;
    for name in ["openhosts", "metadata", "truncs", "flats"] {
        new_folder(&aside, name)?;
    }
    new_file(&aside, "access")?;
    let container = root.join("f");
    fs::rename(&aside, &container)?;
    sync_folder(root)?;
    Ok(container)
}

struct Writer {
    host: u64,
    id: u64,
    log: File,
    index: File,
    stored: u64,
    landed: u64,
    end: u64,
    stamp: u64,
    pending: Vec<u8>,
}

impl Writer {
    fn open(container: &Path, host: u64) -> Result<Writer> {
        let id = FIRST_ID + host;
        new_file(&container.join("openhosts"), &format!("{host}.{id}"))?;
        fs::read_dir(container.join("truncs"))?.count();
        let folder = new_folder(container, &format!("hostdir.{}", host % FOLDERS))?;
        let index = new_file(&folder, &format!("index.{host}.{id}"))?;
        let log = new_file(&folder, &format!("log.{host}.{id}"))?;
        Ok(Writer { host, id, log, index, stored: 0, landed: 0, end: 0, stamp: 0, pending: Vec::with_capacity(PENDING * ENTRY) })
    }

    fn note(&mut self, at: u64, len: u64, stamp: u64) {
        let entry = Entry { at, len, physical: self.stored, stamp, writer: self.id };
        self.pending.extend_from_slice(&entry.bytes());
        self.stored += len;
        self.end = self.end.max(at + len);
        self.stamp = stamp;
    }

    fn flush(&mut self) -> Result<()> {
        self.index.write_all_at(&self.pending, ENTRY as u64 * self.landed)?;
        self.landed += (self.pending.len() / ENTRY) as u64;
        self.pending.clear();
        Ok(())
    }

    fn write(&mut self, at: u64, block: &[u8], stamp: u64) -> Result<()> {
        if self.pending.len() == PENDING * ENTRY {
            self.flush()?;
        }
        self.log.write_all_at(block, self.stored)?;
        self.note(at, block.len() as u64, stamp);
        Ok(())
    }

    fn close(mut self, container: &Path) -> Result<()> {
        self.log.sync_all()?;
        self.flush()?;
        self.index.sync_all()?;
        let Writer { host, id, stored, end, stamp, .. } = self;
        new_file(&container.join("metadata"), &format!("{end}.{stored}.{stamp}.{host}.{id}"))?;
        fs::remove_file(container.join(format!("openhosts/{host}.{id}")))?;
        sync_folder(&container.join("openhosts"))
    }
}

/// All entries of a container, in order of their logical offsets, with the log of each writer.
fn opened(container: &Path) -> Result<(Vec<Entry>, Vec<(u64, File)>)> {
    let mut lists = Vec::new();
    let mut logs = Vec::new();
    for folder in fs::read_dir(container)? {
        let folder = folder?;
        if !folder.file_name().to_string_lossy().starts_with("hostdir.") {
            continue;
        }
        for file in fs::read_dir(folder.path())? {
            let file = file?;
            let name = file.file_name().to_string_lossy().into_owned();
            let Some(of) = name.strip_prefix("index.") else { continue };
            let id = of.split('.').nth(1).and_then(|id| id.parse().ok()).ok_or_else(|| wrong(&name))?;
            let log = File::open(folder.path().join(format!("log.{of}")))?;
            lists.push(entries_of(&File::open(file.path())?, log.metadata()?.len())?);
            logs.push((id, log));
        }
    }
    logs.sort_by_key(|log| log.0);
    Ok((merged(lists), logs))
}

fn entries_of(index: &File, log: u64) -> Result<Vec<Entry>> {
    let whole = index.metadata()?.len() as usize / ENTRY * ENTRY;
    let mut entries = Vec::with_capacity(whole / ENTRY);
    let mut bytes = vec![0; READ.min(whole)];
    let mut place = 0;
    while place < whole {
        let part = &mut bytes[..READ.min(whole - place)];
        index.read_exact_at(part, place as u64)?;
        entries.extend(part.chunks_exact(ENTRY).map(Entry::read));
        place += part.len();
    }
    if entries.iter().any(|entry| entry.len == 0 || entry.physical + entry.len > log) {
        return Err(wrong("an entry past its log"));
    }
    Ok(entries)
}

/// The lists as one, by a heap of their first entries. No entry may overlap another.
fn merged(lists: Vec<Vec<Entry>>) -> Vec<Entry> {
    let mut all = Vec::with_capacity(lists.iter().map(Vec::len).sum());
    let mut lists: Vec<_> = lists.into_iter().map(Vec::into_iter).collect();
    let mut heap = BinaryHeap::new();
    for (place, list) in lists.iter_mut().enumerate() {
        if let Some(entry) = list.next() {
            heap.push(std::cmp::Reverse((entry, place)));
        }
    }
    while let Some(mut top) = heap.peek_mut() {
        let (entry, place) = top.0;
        all.push(entry);
        match lists[place].next() {
            Some(next) => top.0.0 = next,
            None => drop(std::collections::binary_heap::PeekMut::pop(top)),
        }
    }
    all
}

/// A reader by hand: the pieces of all entries so far, and the droppings of each writer.
#[derive(Default)]
struct Reader {
    pieces: Vec<Entry>,
    droppings: HashMap<u64, Dropping>,
}

struct Dropping {
    index: File,
    log: File,
    held: usize,
}

impl Dropping {
    /// The entries that came since.
    fn tail(&mut self) -> Result<Vec<Entry>> {
        let whole = self.index.metadata()?.len() as usize / ENTRY;
        let log = self.log.metadata()?.len();
        let mut bytes = vec![0; (whole - self.held) * ENTRY];
        self.index.read_exact_at(&mut bytes, (self.held * ENTRY) as u64)?;
        let entries: Vec<Entry> = bytes.chunks_exact(ENTRY).map(Entry::read).collect();
        if entries.iter().any(|entry| entry.len == 0 || entry.physical + entry.len > log) {
            return Err(wrong("an entry past its log"));
        }
        self.held = whole;
        Ok(entries)
    }
}

impl Reader {
    /// Lists the folders again, reads of each index what came since, and lays it over the pieces. Returns how many entries came.
    fn refresh(&mut self, container: &Path) -> Result<usize> {
        let mut lists = Vec::new();
        for folder in fs::read_dir(container)? {
            let folder = folder?;
            if !folder.file_name().to_string_lossy().starts_with("hostdir.") {
                continue;
            }
            for file in fs::read_dir(folder.path())? {
                let name = file?.file_name().to_string_lossy().into_owned();
                let Some(of) = name.strip_prefix("index.") else { continue };
                let id = of.split('.').nth(1).and_then(|id| id.parse().ok()).ok_or_else(|| wrong(&name))?;
                if !self.droppings.contains_key(&id) {
                    let index = File::open(folder.path().join(&name))?;
                    let log = File::open(folder.path().join(format!("log.{of}")))?;
                    self.droppings.insert(id, Dropping { index, log, held: 0 });
                }
                lists.push(self.droppings.get_mut(&id).ok_or_else(|| wrong(&name))?.tail()?);
            }
        }
        fs::read_dir(container.join("truncs"))?.count();
        let mut came = if self.pieces.is_empty() { merged(lists) } else { lists.concat() };
        let count = came.len();
        if self.pieces.is_empty() {
            self.pieces = came;
        } else if count > 0 {
            came.sort_unstable_by_key(|entry| entry.at);
            self.pieces = laid_over(&self.pieces, &came)?;
        }
        Ok(count)
    }
}

/// The pieces of the new list, and what they leave of those of the old one. The pieces of each are in order, and those of the new
/// one are later.
fn laid_over(old: &[Entry], new: &[Entry]) -> Result<Vec<Entry>> {
    let part = |piece: &Entry, from: u64, to: u64| Entry { at: from, len: to - from, physical: piece.physical + from - piece.at, ..*piece };
    let mut all = Vec::with_capacity(old.len() + 2 * new.len());
    let (mut next, mut over) = (0, 0);
    for piece in old {
        let (mut at, end) = (piece.at.max(over), piece.at + piece.len);
        while next < new.len() && new[next].at < end {
            let later = &new[next];
            if later.stamp <= piece.stamp {
                return Err(wrong("an earlier write"));
            }
            if at < later.at {
                all.push(part(piece, at, later.at));
            }
            all.push(*later);
            over = later.at + later.len;
            at = at.max(over);
            next += 1;
        }
        if at < end {
            all.push(part(piece, at, end));
        }
    }
    all.extend_from_slice(&new[next..]);
    Ok(all)
}

/// The pieces of the flattened index with the greatest number, which rise and don't overlap.
fn flattened(container: &Path) -> Result<Vec<Entry>> {
    let mut newest = None;
    for file in fs::read_dir(container.join("flats"))? {
        let name = file?.file_name().to_string_lossy().into_owned();
        newest = newest.max(name.parse::<u64>().ok());
    }
    let newest = newest.ok_or_else(|| wrong("no flattened index"))?;
    let file = File::open(container.join("flats").join(newest.to_string()))?;
    let whole = file.metadata()?.len() as usize;
    let mut bytes = vec![0; whole];
    for (place, part) in bytes.chunks_mut(FLAT_READ).enumerate() {
        file.read_exact_at(part, (place * FLAT_READ) as u64)?;
    }
    let number = |at: usize| u64::from_le_bytes(bytes[at..at + 8].try_into().unwrap()) as usize;
    let (covers, pieces) = (number(8), number(16));
    let from = FLAT_HEAD + COVER * covers;
    if &bytes[..8] != b"PLFSFLT1" || whole != from + ENTRY * pieces {
        return Err(wrong("a flattened index"));
    }
    let pieces: Vec<Entry> = bytes[from..].chunks_exact(ENTRY).map(Entry::read).collect();
    if pieces.iter().any(|piece| piece.len == 0) || pieces.windows(2).any(|two| two[0].at + two[0].len > two[1].at) {
        return Err(wrong("a piece"));
    }
    Ok(pieces)
}

/// Writes a checkpoint of so many writers, reads it back, and compares each block.
fn write(root: &Path, writers: u64) -> Result<()> {
    let table: Vec<u8> = (0..BLOCK + 256).map(|j| j as u8).collect();
    let block = |round: u64, writer: u64| {
        let from = ((round + writer) % 256) as usize;
        &table[from..from + BLOCK]
    };
    let container = new_container(root)?;
    let mut open = (0..writers).map(|host| Writer::open(&container, host)).collect::<Result<Vec<_>>>()?;
    let mut stamp = 0;
    for round in 0..ROUNDS {
        for writer in &mut open {
            stamp += 1;
            let at = (round * writers + writer.host) * BLOCK as u64;
            writer.write(at, block(round, writer.host), stamp)?;
        }
    }
    for writer in open {
        writer.close(&container)?;
    }
    let (entries, logs) = opened(&container)?;
    let mut bytes = vec![0; BLOCK];
    for (place, entry) in entries.iter().enumerate() {
        let log = logs.binary_search_by_key(&entry.writer, |log| log.0).map_err(|_| wrong("no log"))?;
        logs[log].1.read_exact_at(&mut bytes, entry.physical)?;
        let (round, writer) = (place as u64 / writers, place as u64 % writers);
        if entry.at != place as u64 * BLOCK as u64 || bytes != block(round, writer) {
            return Err(wrong("a block"));
        }
    }
    Ok(())
}

/// Makes a container whose blocks of 4096 bytes are of one writer after the other. The logs are holes.
fn make(root: &Path, writers: u64, entries: u64) -> Result<()> {
    let container = new_container(root)?;
    for host in 0..writers {
        let mut writer = Writer::open(&container, host)?;
        for k in (host..entries).step_by(writers as usize) {
            if writer.pending.len() == PENDING * ENTRY {
                writer.flush()?;
            }
            writer.note(k * STRIDE, STRIDE, k + 1);
        }
        writer.log.set_len(writer.stored)?;
        writer.close(&container)?;
    }
    Ok(())
}

/// A new writer writes so many blocks over those that are there, and a reader is refreshed; all that so many times. What is told is
/// how many entries came, and the seconds of the refreshes.
fn refresh(root: &Path, count: u64, times: u64) -> Result<String> {
    let container = root.join("f");
    let mut reader = Reader::default();
    let blocks = reader.refresh(&container)? as u64;
    let mut writer = Writer::open(&container, FOLDERS * 2)?;
    let (mut came, mut spent) = (0, 0.0);
    for turn in 0..times {
        for k in turn * count..(turn + 1) * count {
            writer.note(k * FAR % blocks * STRIDE, STRIDE, blocks + k + 1);
        }
        writer.log.set_len(writer.stored)?;
        writer.flush()?;
        let begun = Instant::now();
        came += reader.refresh(&container)?;
        spent += begun.elapsed().as_secs_f64();
    }
    if reader.pieces.len() as u64 != blocks {
        return Err(wrong("a piece"));
    }
    Ok(format!(" {came} {spent:.6}"))
}

fn run(words: &[String]) -> Result<String> {
    let words: Vec<&str> = words.iter().map(String::as_str).collect();
    let number = |word: &str| word.parse::<u64>().map_err(|_| Error::new(ErrorKind::InvalidInput, "a number"));
    match words[..] {
        ["write", root, writers] => write(Path::new(root), number(writers)?).map(|()| String::new()),
        ["make", root, writers, entries] => make(Path::new(root), number(writers)?, number(entries)?).map(|()| String::new()),
        ["open", root] => opened(&Path::new(root).join("f")).map(|(entries, _)| format!(" {}", entries.len())),
        ["flat", root] => flattened(&Path::new(root).join("f")).map(|pieces| format!(" {}", pieces.len())),
        ["refresh", root, count, times] => refresh(Path::new(root), number(count)?, number(times)?),
        _ => {
            let usage = "usage: checkpoint write FOLDER N | make FOLDER W E | open FOLDER | flat FOLDER | refresh FOLDER K R";
            Err(Error::new(ErrorKind::InvalidInput, usage))
        }
    }
}

fn main() -> io::Result<()> {
    let words: Vec<String> = env::args().skip(1).collect();
    let begun = Instant::now();
    match run(&words) {
        Ok(told) => println!("{:.6}{told}", begun.elapsed().as_secs_f64()),
        Err(error) => {
            eprintln!("checkpoint: {error}");
            process::exit(70);
        }
    }
    Ok(())
}
