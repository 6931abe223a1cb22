// SPDX-License-Identifier: MIT OR Apache-2.0
//! A plain program with the same replies as `kernfs_run`, as a baseline for measurements. `bench/run` builds it. It
//! uses only std, and nothing is proved. A directory is a `BTreeMap` of its names.
//!
//! `plain [--slots N] [--line-writes] [--keep-commands] [--tuned] < SCRIPT`. A line is parsed in place, in the buffer
//! of the read. Replies are batched as in `kernfs_run`: whole lines of at most 4,096 bytes, written before each read; with
//! `--line-writes` each is written by itself. Commands are counted; with `--keep-commands` they are stored too, as
//! `kernfs_run` stores them. It is ordinary code for std. With `--tuned` it does what a profile of it suggests: numbers
//! without `fmt`, a path walked before it is searched for an empty name, and standard output as a file, without std's
//! lock and line buffer.
//!
//! It lacks two duties of `kernfs_run`: if memory is refused, it aborts instead of replying with a refusal, and it does
//! not count references to a node while the node shows or stores.

use std::cmp::Reverse;
use std::collections::{BTreeMap, BinaryHeap};
use std::fs::File;
use std::io::{self, BufRead, Read, StdoutLock, Write};
use std::os::fd::AsFd;
use std::process::ExitCode;

/// The length of the longest command, without its newline.
const LINE_LIMIT: usize = 8192;
/// The most bytes of one read.
const CHUNK: usize = 1 << 16;
/// The most bytes of replies in a batch: as many as a pipe takes at once.
const KEPT: usize = 4096;
/// The bytes of a page: a store gets at most this many, and a show has one less.
const PAGE: usize = 4096;
/// The most holds that a slot may have.
const HOLDS: u32 = 65_535;
/// The most slots of a tree.
const MOST_SLOTS: u32 = 1_048_576;
const ROOT: u32 = 0;

#[derive(Clone, Copy)]
enum Refusal {
    NoEntry,
    Access,
    Busy,
    Exists,
    NoDevice,
    NotDir,
    IsDir,
    Invalid,
    TooManyHolds,
    NoSpace,
    NameTooLong,
    /// The line is not a command.
    Line,
}

impl Refusal {
    fn text(self) -> &'static str {
        match self {
            Refusal::NoEntry => "err NoEntry 2",
            Refusal::Access => "err Access 13",
            Refusal::Busy => "err Busy 16",
            Refusal::Exists => "err Exists 17",
            Refusal::NoDevice => "err NoDevice 19",
            Refusal::NotDir => "err NotDir 20",
            Refusal::IsDir => "err IsDir 21",
            Refusal::Invalid => "err Invalid 22",
            Refusal::TooManyHolds => "err TooManyHolds 24",
            Refusal::NoSpace => "err NoSpace 28",
            Refusal::NameTooLong => "err NameTooLong 36",
            Refusal::Line => "err Line 22",
        }
    }
}

#[derive(Clone, Copy, PartialEq, Eq)]
struct Key {
    slot: u32,
    generation: u32,
}

enum Kind {
    Dir {
        children: BTreeMap<Box<[u8]>, u32>,
        subdirs: u32,
    },
    File {
        mode: u16,
        text: Vec<u8>,
    },
    Link {
        target: Key,
    },
}

struct Node {
    parent: u32,
    name: Box<[u8]>,
    kind: Kind,
    activated: bool,
    hidden: bool,
}

impl Node {
    fn is_live(&self) -> bool {
        self.activated && !self.hidden
    }

    fn is_dir(&self) -> bool {
        matches!(self.kind, Kind::Dir { .. })
    }
}

/// A slot is free if it has no node and no hold. The key of its last node stays known.
struct Slot {
    generation: u32,
    holds: u32,
    event: u64,
    /// The key that is hidden, until it is shown again.
    token: Option<Key>,
    node: Option<Node>,
}

struct OpenFile {
    key: Key,
    reads: bool,
    writes: bool,
    /// The text of the last show, with the event number that was read before it.
    text: Option<Vec<u8>>,
    number: u64,
}

struct Board {
    slots: Vec<Slot>,
    free: BinaryHeap<Reverse<u32>>,
    files: [Option<OpenFile>; 26],
    commands: Commands,
    tuned: bool,
}

/// The replies, one after another.
struct Replies {
    bytes: Vec<u8>,
    /// Whether numbers are written without `fmt`.
    tuned: bool,
}

impl Replies {
    fn put(&mut self, text: &[u8]) {
        self.bytes.extend_from_slice(text);
    }

    fn put_number(&mut self, number: u64) {
        if !self.tuned {
            write!(self.bytes, "{number}").expect("a Vec takes all bytes");
            return;
        }
        let (mut digits, mut start, mut rest) = ([b'0'; 20], 20, number);
        while rest > 0 || start == 20 {
            start -= 1;
            digits[start] += (rest % 10) as u8;
            rest /= 10;
        }
        self.put(&digits[start..]);
    }

    fn put_done(&mut self, _: ()) {
        self.put(b"ok");
    }

    fn put_key(&mut self, key: Key) {
        self.put(b"ok ");
        self.put_number(u64::from(key.slot));
        self.put(b".");
        self.put_number(u64::from(key.generation));
    }
}

/// Why a name is refused: first its length, then its bytes.
fn check_name(name: &[u8]) -> Result<(), Refusal> {
    if name.len() > 255 {
        return Err(Refusal::NameTooLong);
    }
    let is_bad = name.is_empty() || name == b"." || name == b"..";
    if is_bad || name.iter().any(|byte| *byte == b'/' || *byte == 0) {
        return Err(Refusal::Invalid);
    }
    Ok(())
}

impl Board {
    fn new(slots: u32, keep_commands: bool, tuned: bool) -> Board {
        let mut board = Board {
            slots: Vec::new(),
            free: (1..slots).map(Reverse).collect(),
            files: [const { None }; 26],
            commands: Commands {
                count: 0,
                kept: keep_commands.then(Vec::new),
            },
            tuned,
        };
        for _ in 0..slots {
            board.slots.push(Slot {
                generation: 0,
                holds: 0,
                event: 1,
                token: None,
                node: None,
            });
        }
        board.slots[0].generation = 1;
        board.slots[0].node = Some(Node {
            parent: ROOT,
            name: Box::from(&b""[..]),
            kind: Kind::Dir {
                children: BTreeMap::new(),
                subdirs: 0,
            },
            activated: true,
            hidden: false,
        });
        board
    }

    fn slot(&self, slot: u32) -> &Slot {
        &self.slots[slot as usize]
    }

    fn slot_mut(&mut self, slot: u32) -> &mut Slot {
        &mut self.slots[slot as usize]
    }

    /// The node of a slot that is known to have one.
    fn node(&self, slot: u32) -> &Node {
        self.slot(slot).node.as_ref().expect("a linked node")
    }

    fn node_mut(&mut self, slot: u32) -> &mut Node {
        self.slot_mut(slot).node.as_mut().expect("a linked node")
    }

    fn key(&self, slot: u32) -> Key {
        Key {
            slot,
            generation: self.slot(slot).generation,
        }
    }

    /// The node of a key, if it is linked.
    fn linked(&self, key: Key) -> Option<&Node> {
        let slot = self.slot(key.slot);
        slot.node
            .as_ref()
            .filter(|_| slot.generation == key.generation)
    }

    fn find(&self, dir: u32, name: &[u8], live_only: bool) -> Result<u32, Refusal> {
        let Kind::Dir { children, .. } = &self.node(dir).kind else {
            return Err(Refusal::NotDir);
        };
        let child = *children.get(name).ok_or(Refusal::NoEntry)?;
        if live_only && !self.node(child).is_live() {
            return Err(Refusal::NoEntry);
        }
        Ok(child)
    }

    fn walk(&self, path: &[u8], live_only: bool) -> Result<u32, Refusal> {
        let parts = path.strip_prefix(b"/").ok_or(Refusal::Invalid)?;
        if parts.is_empty() {
            return Ok(ROOT);
        }
        self.walk_names(parts, live_only)
    }

    /// Walks from the root by the names between slashes. No node has an empty name, so a walk that meets one is
    /// refused; if tuned, only then does it check whether that was the cause.
    fn walk_names(&self, names: &[u8], live_only: bool) -> Result<u32, Refusal> {
        let parts = names.split(|byte| *byte == b'/');
        let has_empty = || parts.clone().any(<[u8]>::is_empty);
        if !self.tuned && has_empty() {
            return Err(Refusal::Invalid);
        }
        let why = match parts
            .clone()
            .try_fold(ROOT, |dir, name| self.find(dir, name, live_only))
        {
            Ok(end) => return Ok(end),
            Err(why) => why,
        };
        Err(if has_empty() { Refusal::Invalid } else { why })
    }

    /// The directory part of a path, walked, and its last name.
    fn walk_parent<'a>(&self, path: &'a [u8]) -> Result<(u32, &'a [u8]), Refusal> {
        let parts = path.strip_prefix(b"/").ok_or(Refusal::Invalid)?;
        let Some(at) = parts.iter().rposition(|byte| *byte == b'/') else {
            let is_root = parts.is_empty();
            return if is_root {
                Err(Refusal::Invalid)
            } else {
                Ok((ROOT, parts))
            };
        };
        Ok((self.walk_names(&parts[..at], false)?, &parts[at + 1..]))
    }

    /// Puts a node without a parent into a directory.
    fn enter_directory(&mut self, dir: u32, name: &[u8], child: u32, is_dir: bool) {
        let Kind::Dir { children, subdirs } = &mut self.node_mut(dir).kind else {
            unreachable!("a directory")
        };
        children.insert(Box::from(name), child);
        *subdirs += u32::from(is_dir);
    }

    fn leave_directory(&mut self, dir: u32, name: &[u8], is_dir: bool) {
        let Kind::Dir { children, subdirs } = &mut self.node_mut(dir).kind else {
            unreachable!("a directory")
        };
        children.remove(name);
        *subdirs -= u32::from(is_dir);
    }

    fn create(&mut self, dir: u32, name: &[u8], kind: Kind, live: bool) -> Result<Key, Refusal> {
        check_name(name)?;
        let Kind::Dir { children, .. } = &self.node(dir).kind else {
            return Err(Refusal::NotDir);
        };
        if matches!(kind, Kind::Link { target } if target.slot == ROOT) {
            return Err(Refusal::Invalid);
        }
        if children.contains_key(name) {
            return Err(Refusal::Exists);
        }
        let Reverse(slot) = self.free.pop().ok_or(Refusal::NoSpace)?;
        let node = Node {
            parent: dir,
            name: Box::from(name),
            kind,
            activated: live,
            hidden: false,
        };
        self.enter_directory(dir, name, slot, node.is_dir());
        let place = self.slot_mut(slot);
        place.generation += 1;
        place.node = Some(node);
        self.commands.add(|| creation(&self.slots, slot));
        Ok(self.key(slot))
    }

    fn make(&mut self, path: &[u8], kind: Kind, live: bool) -> Result<Key, Refusal> {
        let (dir, name) = self.walk_parent(path)?;
        self.create(dir, name, kind, live)
    }

    fn make_link(&mut self, path: &[u8], target: &[u8]) -> Result<Key, Refusal> {
        let (dir, name) = self.walk_parent(path)?;
        let target = self.key(self.walk(target, false)?);
        self.create(dir, name, Kind::Link { target }, true)
    }

    /// The slots of a subtree, each directory before its contents.
    fn subtree(&self, top: u32) -> Vec<u32> {
        let mut slots = vec![top];
        let mut seen = 0;
        while seen < slots.len() {
            if let Kind::Dir { children, .. } = &self.node(slots[seen]).kind {
                slots.extend(children.values());
            }
            seen += 1;
        }
        slots
    }

    fn activate(&mut self, path: &[u8]) -> Result<(), Refusal> {
        let top = self.walk(path, false)?;
        for slot in self.subtree(top) {
            self.node_mut(slot).activated = true;
        }
        let key = self.key(top);
        self.commands.add(|| Command::Activate(key));
        Ok(())
    }

    fn is_below(&self, top: u32, slot: u32) -> bool {
        let mut current = slot;
        while current != top && current != ROOT {
            current = self.node(current).parent;
        }
        current == top
    }

    fn rename(&mut self, path: &[u8], dir: &[u8], name: &[u8]) -> Result<(), Refusal> {
        let slot = self.walk(path, false)?;
        let dir = self.walk(dir, false)?;
        if slot == ROOT {
            return Err(Refusal::Invalid);
        }
        check_name(name)?;
        let Kind::Dir { children, .. } = &self.node(dir).kind else {
            return Err(Refusal::NotDir);
        };
        let node = self.node(slot);
        if !node.is_live() || !self.node(dir).is_live() {
            return Err(Refusal::NoEntry);
        }
        if node.parent == dir && *node.name == *name {
            return Ok(());
        }
        if self.is_below(slot, dir) {
            return Err(Refusal::Invalid);
        }
        if children.contains_key(name) {
            return Err(Refusal::Exists);
        }
        let is_dir = node.is_dir();
        let node = self.node_mut(slot);
        let old_parent = std::mem::replace(&mut node.parent, dir);
        let old_name = std::mem::replace(&mut node.name, Box::from(name));
        self.leave_directory(old_parent, &old_name, is_dir);
        self.enter_directory(dir, name, slot, is_dir);
        let (key, dir) = (self.key(slot), self.key(dir));
        self.commands.add(|| Command::Rename {
            key,
            dir,
            name: Box::from(name),
        });
        Ok(())
    }

    fn remove(&mut self, path: &[u8]) -> Result<(), Refusal> {
        let top = self.walk(path, false)?;
        if top == ROOT {
            return Err(Refusal::Invalid);
        }
        let slots = self.subtree(top);
        if slots.iter().any(|slot| self.slot(*slot).holds >= HOLDS) {
            return Err(Refusal::TooManyHolds);
        }
        let node = self.node_mut(top);
        let (parent, name, is_dir) = (node.parent, std::mem::take(&mut node.name), node.is_dir());
        self.leave_directory(parent, &name, is_dir);
        let key = self.key(top);
        self.commands.add(|| Command::Doom(key));
        for slot in &slots {
            let key = self.key(*slot);
            self.slot_mut(*slot).node = None;
            self.commands.add(|| Command::Unlink(key));
            self.free_if_unused(*slot);
        }
        Ok(())
    }

    fn free_if_unused(&mut self, slot: u32) {
        let place = self.slot(slot);
        if place.node.is_none() && place.holds == 0 && place.generation < u32::MAX {
            self.free.push(Reverse(slot));
        }
    }

    fn pin(&mut self, slot: u32) -> Result<(), Refusal> {
        let place = self.slot_mut(slot);
        if place.holds >= HOLDS {
            return Err(Refusal::TooManyHolds);
        }
        place.holds += 1;
        Ok(())
    }

    fn release(&mut self, slot: u32) {
        self.slot_mut(slot).holds -= 1;
        self.free_if_unused(slot);
    }

    /// The slots from the root to a node, including both.
    fn way_to(&self, slot: u32) -> Vec<u32> {
        let mut way = vec![slot];
        let mut current = slot;
        while current != ROOT {
            current = self.node(current).parent;
            way.push(current);
        }
        way.reverse();
        way
    }

    fn read_link(&self, path: &[u8], reply: &mut Replies) -> Result<(), Refusal> {
        let link = self.node(self.walk(path, true)?);
        let Kind::Link { target } = link.kind else {
            return Err(Refusal::Invalid);
        };
        self.linked(target).ok_or(Refusal::NoEntry)?;
        let from = self.way_to(link.parent);
        let to = self.way_to(target.slot);
        let above = &to[..to.len() - 1];
        let common = from.iter().zip(above).take_while(|(a, b)| a == b).count();
        for _ in common..from.len() {
            reply.put(b"../");
        }
        for slot in &to[common..] {
            reply.put(&self.node(*slot).name);
            reply.bytes.push(b'/');
        }
        reply.bytes.pop();
        Ok(())
    }

    fn list(&self, path: &[u8], reply: &mut Replies) -> Result<(), Refusal> {
        let Kind::Dir { children, .. } = &self.node(self.walk(path, true)?).kind else {
            return Err(Refusal::NotDir);
        };
        let start = reply.bytes.len();
        for (name, child) in children {
            if self.node(*child).is_live() {
                reply.put(name);
                reply.bytes.push(b' ');
            }
        }
        if reply.bytes.len() > start {
            reply.bytes.pop();
        }
        Ok(())
    }

    fn stat(&self, path: &[u8], reply: &mut Replies) -> Result<(), Refusal> {
        let node = self.node(self.walk(path, false)?);
        let state = match (node.activated, node.hidden) {
            (false, _) => &b" off"[..],
            (true, true) => b" hidden",
            (true, false) => b" live",
        };
        match &node.kind {
            Kind::Dir { subdirs, .. } => {
                reply.put(b"dir subdirs=");
                reply.put_number(u64::from(*subdirs));
                reply.put(b" nlink=");
                reply.put_number(u64::from(*subdirs) + 2);
            }
            Kind::File { mode, .. } => {
                reply.put(b"file mode=");
                reply.put(&[6, 3, 0].map(|shift| b'0' + (mode >> shift & 7) as u8));
            }
            Kind::Link { .. } => reply.put(b"link"),
        }
        reply.put(state);
        Ok(())
    }

    fn open(
        &mut self,
        letter: usize,
        path: &[u8],
        reads: bool,
        writes: bool,
    ) -> Result<(), Refusal> {
        if self.files[letter].is_some() {
            return Err(Refusal::Busy);
        }
        let slot = self.walk(path, true)?;
        if self.slot(slot).holds >= HOLDS {
            return Err(Refusal::TooManyHolds);
        }
        let mode = match &self.node(slot).kind {
            Kind::Dir { .. } => return Err(Refusal::IsDir),
            Kind::Link { .. } => return Err(Refusal::Invalid),
            Kind::File { mode, .. } => *mode,
        };
        if (reads && mode & 0o444 == 0) || (writes && mode & 0o222 == 0) {
            return Err(Refusal::Access);
        }
        self.pin(slot)?;
        self.files[letter] = Some(OpenFile {
            key: self.key(slot),
            reads,
            writes,
            text: None,
            number: 0,
        });
        Ok(())
    }

    fn read(
        &mut self,
        letter: usize,
        offset: u64,
        most: usize,
        reply: &mut Replies,
    ) -> Result<(), Refusal> {
        let file = self.files[letter].as_mut().ok_or(Refusal::Invalid)?;
        if !file.reads {
            return Err(Refusal::Access);
        }
        if offset == 0 || file.text.is_none() {
            let slot = &self.slots[file.key.slot as usize];
            let shown = live_text(slot, file.key).ok_or(Refusal::NoDevice)?;
            file.number = slot.event;
            let text = file.text.get_or_insert_default();
            text.clear();
            text.extend_from_slice(&shown[..shown.len().min(PAGE - 1)]);
        }
        let text = file.text.as_deref().unwrap_or_default();
        let start = text.len().min(offset as usize);
        let end = text.len().min(start + most);
        reply.put(&text[start..end]);
        Ok(())
    }

    fn write(&mut self, letter: usize, bytes: &[u8]) -> Result<usize, Refusal> {
        let file = self.files[letter].as_ref().ok_or(Refusal::Invalid)?;
        if !file.writes {
            return Err(Refusal::Access);
        }
        let (key, slot) = (file.key, &mut self.slots[file.key.slot as usize]);
        live_text(slot, key).ok_or(Refusal::NoDevice)?;
        let stored = &bytes[..bytes.len().min(PAGE)];
        if let (false, Some(Kind::File { text, .. })) = (
            stored.is_empty(),
            slot.node.as_mut().map(|node| &mut node.kind),
        ) {
            text.clear();
            text.extend_from_slice(stored);
        }
        Ok(stored.len())
    }

    fn poll(&self, letter: usize) -> Result<bool, Refusal> {
        let file = self.files[letter].as_ref().ok_or(Refusal::Invalid)?;
        let slot = self.slot(file.key.slot);
        Ok(live_text(slot, file.key).is_none() || slot.event != file.number)
    }

    fn notify(&mut self, path: &[u8]) -> Result<(), Refusal> {
        let slot = self.walk(path, false)?;
        check_file(self.node(slot))?;
        let event = &mut self.slot_mut(slot).event;
        *event = event.checked_add(1).ok_or(Refusal::NoSpace)?;
        Ok(())
    }

    fn close(&mut self, letter: usize) -> Result<(), Refusal> {
        let file = self.files[letter].take().ok_or(Refusal::Invalid)?;
        self.release(file.key.slot);
        Ok(())
    }

    fn hide(&mut self, path: &[u8]) -> Result<(), Refusal> {
        let slot = self.walk(path, false)?;
        if self.slot(slot).holds >= HOLDS {
            return Err(Refusal::TooManyHolds);
        }
        let node = self.node(slot);
        check_file(node)?;
        if node.hidden {
            return Err(Refusal::Busy);
        }
        self.pin(slot)?;
        self.slot_mut(slot).token = Some(self.key(slot));
        self.node_mut(slot).hidden = true;
        let key = self.key(slot);
        self.commands.add(|| Command::Hide(key));
        Ok(())
    }

    fn show(&mut self, path: &[u8]) -> Result<(), Refusal> {
        let slot = self.walk(path, false)?;
        if self.slot(slot).token != Some(self.key(slot)) {
            return Err(Refusal::Invalid);
        }
        self.slot_mut(slot).token = None;
        self.node_mut(slot).hidden = false;
        let key = self.key(slot);
        self.release(slot);
        self.commands.add(|| Command::Show(key));
        Ok(())
    }

    /// One command for each node except the root, directories before their contents, and one for each hidden
    /// file.
    fn compact(&mut self) {
        let nodes = self.slots[1..].iter().filter_map(|slot| slot.node.as_ref());
        self.commands.count = nodes.map(|node| 1 + usize::from(node.hidden)).sum();
        if self.commands.kept.is_none() {
            return;
        }
        let slots = self.subtree(ROOT);
        let created = slots[1..].iter().map(|slot| creation(&self.slots, *slot));
        let hidden = slots.iter().filter(|slot| self.node(**slot).hidden);
        let hidden = hidden.map(|slot| Command::Hide(self.key(*slot)));
        self.commands.kept = Some(created.chain(hidden).collect());
    }

    /// Appends the reply to a line to the buffer.
    fn answer(&mut self, line: &[u8], reply: &mut Replies) -> Result<(), Refusal> {
        match cut(line) {
            (b"file", rest) => {
                let (path, rest) = cut(rest);
                let (mode, text) = cut(rest);
                let mode = mode_of(mode)
                    .filter(|_| !path.is_empty())
                    .ok_or(Refusal::Line)?;
                let text = text.to_vec();
                reply.put_key(self.make(path, Kind::File { mode, text }, true)?)
            }
            (b"write", rest) => {
                let (letter, text) = cut(rest);
                let count = self.write(letter_of(letter)?, text)?;
                reply.put_number(count as u64)
            }
            (b"plug", rest) => {
                let is_named = !cut(rest).0.is_empty();
                return Err(if is_named {
                    Refusal::NoDevice
                } else {
                    Refusal::Line
                });
            }
            _ => return self.answer_words(line, reply),
        }
        Ok(())
    }

    fn answer_words(&mut self, line: &[u8], reply: &mut Replies) -> Result<(), Refusal> {
        let mut words: [&[u8]; 4] = [&[]; 4];
        let mut count = 0;
        for word in line.split(|byte| *byte == b' ') {
            *words
                .get_mut(count)
                .filter(|_| !word.is_empty())
                .ok_or(Refusal::Line)? = word;
            count += 1;
        }
        let new_directory = || Kind::Dir {
            children: BTreeMap::new(),
            subdirs: 0,
        };
        match words[..count] {
            [b"mkdir", path] => reply.put_key(self.make(path, new_directory(), true)?),
            [b"mkdir", path, b"off"] => reply.put_key(self.make(path, new_directory(), false)?),
            [b"link", path, target] => reply.put_key(self.make_link(path, target)?),
            [b"activate", path] => reply.put_done(self.activate(path)?),
            [b"ls", path] => self.list(path, reply)?,
            [b"stat", path] => self.stat(path, reply)?,
            [b"readlink", path] => self.read_link(path, reply)?,
            [b"mv", path, dir, name] => reply.put_done(self.rename(path, dir, name)?),
            [b"rm", path] => reply.put_done(self.remove(path)?),
            [b"open", letter, path, want] => {
                let letter = letter_of(letter)?;
                let (reads, writes) = match want {
                    b"r" => (true, false),
                    b"w" => (false, true),
                    b"rw" => (true, true),
                    _ => return Err(Refusal::Line),
                };
                reply.put_done(self.open(letter, path, reads, writes)?)
            }
            [b"read", letter, offset, most] => {
                let letter = letter_of(letter)?;
                let offset = number_of(offset, 10, u64::from(u32::MAX))?;
                let most = number_of(most, 5, 65_535)? as usize;
                self.read(letter, offset, most, reply)?
            }
            [b"poll", letter] => {
                let changed = self.poll(letter_of(letter)?)?;
                reply.put(if changed { b"changed" } else { b"same" })
            }
            [b"notify", path] => reply.put_done(self.notify(path)?),
            [b"close", letter] => reply.put_done(self.close(letter_of(letter)?)?),
            [b"hide", path] => reply.put_done(self.hide(path)?),
            [b"show", path] => reply.put_done(self.show(path)?),
            [b"commands"] => reply.put_number(self.commands.count as u64),
            [b"compact"] => reply.put_done(self.compact()),
            [b"unplug", _] => return Err(Refusal::NoDevice),
            [b"wait"] => reply.put_done(()),
            _ => return Err(Refusal::Line),
        }
        Ok(())
    }
}

/// The command that creates the node of a slot.
fn creation(slots: &[Slot], slot: u32) -> Command {
    let key = |slot: u32| Key {
        slot,
        generation: slots[slot as usize].generation,
    };
    let node = slots[slot as usize].node.as_ref().expect("a linked node");
    Command::Create {
        key: key(slot),
        dir: key(node.parent),
        name: node.name.clone(),
        made: Made::of(&node.kind),
        live: node.activated,
    }
}

/// The text of a key's file, if that is live.
fn live_text(slot: &Slot, key: Key) -> Option<&[u8]> {
    let node = slot.node.as_ref()?;
    match &node.kind {
        Kind::File { text, .. } if slot.generation == key.generation && node.is_live() => {
            Some(text)
        }
        _ => None,
    }
}

fn check_file(node: &Node) -> Result<(), Refusal> {
    match node.kind {
        Kind::Dir { .. } => Err(Refusal::IsDir),
        Kind::Link { .. } => Err(Refusal::Invalid),
        Kind::File { .. } => Ok(()),
    }
}

/// The bytes before the first space, and those after it.
fn cut(text: &[u8]) -> (&[u8], &[u8]) {
    match text.iter().position(|byte| *byte == b' ') {
        Some(at) => (&text[..at], &text[at + 1..]),
        None => (text, &[]),
    }
}

fn mode_of(word: &[u8]) -> Option<u16> {
    let is_mode = word.len() == 3 && word.iter().all(|byte| (b'0'..=b'7').contains(byte));
    is_mode.then(|| {
        word.iter()
            .fold(0, |mode, byte| mode * 8 + u16::from(byte - b'0'))
    })
}

fn letter_of(word: &[u8]) -> Result<usize, Refusal> {
    match word {
        [letter @ b'a'..=b'z'] => Ok(usize::from(letter - b'a')),
        _ => Err(Refusal::Line),
    }
}

fn number_of(word: &[u8], digits: usize, greatest: u64) -> Result<u64, Refusal> {
    if word.len() > digits || !word.iter().all(u8::is_ascii_digit) {
        return Err(Refusal::Line);
    }
    let number = word
        .iter()
        .fold(0, |number, byte| number * 10 + u64::from(byte - b'0'));
    if number > greatest {
        Err(Refusal::Line)
    } else {
        Ok(number)
    }
}

/// A change of the tree. A list of them creates the tree again.
#[allow(dead_code)]
enum Command {
    Create {
        key: Key,
        dir: Key,
        name: Box<[u8]>,
        made: Made,
        live: bool,
    },
    Activate(Key),
    Rename {
        key: Key,
        dir: Key,
        name: Box<[u8]>,
    },
    Doom(Key),
    Unlink(Key),
    Hide(Key),
    Show(Key),
}

/// What a new node is.
#[allow(dead_code)]
enum Made {
    Dir,
    File(u16),
    Link(Key),
}

impl Made {
    fn of(kind: &Kind) -> Made {
        match kind {
            Kind::Dir { .. } => Made::Dir,
            Kind::File { mode, .. } => Made::File(*mode),
            Kind::Link { target } => Made::Link(*target),
        }
    }
}

/// The commands so far: how many, and which, if they are kept.
struct Commands {
    count: usize,
    kept: Option<Vec<Command>>,
}

impl Commands {
    fn add(&mut self, command: impl FnOnce() -> Command) {
        self.count += 1;
        if let Some(kept) = &mut self.kept {
            kept.push(command());
        }
    }
}

/// Where replies go.
enum Output {
    Std(StdoutLock<'static>),
    File(File),
}

/// The script on its way to replies, and the replies that are not written yet.
struct Script {
    board: Board,
    input: File,
    output: Output,
    replies: Replies,
    line_writes: bool,
}

impl Script {
    fn new(board: Board, line_writes: bool) -> io::Result<Script> {
        let tuned = board.tuned;
        let input = File::from(io::stdin().as_fd().try_clone_to_owned()?);
        Ok(Script {
            board,
            input,
            output: if tuned {
                Output::File(File::from(io::stdout().as_fd().try_clone_to_owned()?))
            } else {
                Output::Std(io::stdout().lock())
            },
            replies: Replies {
                bytes: Vec::new(),
                tuned,
            },
            line_writes,
        })
    }

    fn end_line(&mut self, line: &[u8]) -> io::Result<()> {
        if line.is_empty() {
            return Ok(());
        }
        let start = self.replies.bytes.len();
        let told = if line.len() > LINE_LIMIT {
            Err(Refusal::Line)
        } else {
            self.board.answer(line, &mut self.replies)
        };
        if let Err(refusal) = told {
            self.replies.bytes.truncate(start);
            self.replies.put(refusal.text().as_bytes());
        }
        self.replies.bytes.push(b'\n');
        if self.line_writes {
            return self.write_all_replies();
        }
        if self.replies.bytes.len() > KEPT {
            self.write_replies(start)?;
        }
        if self.replies.bytes.len() > KEPT {
            self.write_all_replies()?;
        }
        Ok(())
    }

    /// Writes this many of the batched bytes, from the first on.
    fn write_replies(&mut self, count: usize) -> io::Result<()> {
        let bytes = &self.replies.bytes[..count];
        if bytes.is_empty() {
            return Ok(());
        }
        match &mut self.output {
            Output::Std(output) => output.write_all(bytes)?,
            Output::File(output) => output.write_all(bytes)?,
        }
        self.replies.bytes.drain(..count);
        Ok(())
    }

    fn write_all_replies(&mut self) -> io::Result<()> {
        self.write_replies(self.replies.bytes.len())
    }

    /// Reads once, and returns how many bytes came. All replies are written before.
    fn read(&mut self, chunk: &mut [u8]) -> io::Result<usize> {
        self.write_all_replies()?;
        self.input.read(chunk)
    }

    fn run(&mut self) -> io::Result<()> {
        let mut chunk = vec![0; CHUNK];
        // the line that a read has cut; of one that is too long, one byte more than a command may have
        let mut part: Vec<u8> = Vec::new();
        loop {
            let count = self.read(&mut chunk)?;
            let mut rest = &chunk[..count];
            if rest.is_empty() {
                self.end_line(&part)?;
                return self.write_all_replies();
            }
            while !rest.is_empty() {
                let from = rest;
                let line = &from[..rest.skip_until(b'\n')?];
                let Some(line) = line.strip_suffix(b"\n") else {
                    keep(&mut part, line);
                    break;
                };
                if part.is_empty() {
                    self.end_line(line)?;
                } else {
                    keep(&mut part, line);
                    self.end_line(&part)?;
                    part.clear();
                }
            }
        }
    }
}

/// Appends more of a line to its beginning.
fn keep(part: &mut Vec<u8>, more: &[u8]) {
    let room = LINE_LIMIT + 1 - part.len();
    part.extend_from_slice(&more[..room.min(more.len())]);
}

fn main() -> ExitCode {
    let mut slots = Some(1024);
    let (mut line_writes, mut keep_commands, mut tuned) = (false, false, false);
    let mut words = std::env::args().skip(1);
    while let Some(word) = words.next() {
        match word.as_str() {
            "--slots" => slots = words.next().and_then(|number| number.parse().ok()),
            "--line-writes" => line_writes = true,
            "--keep-commands" => keep_commands = true,
            "--tuned" => tuned = true,
            _ => slots = None,
        }
    }
    let Some(slots) = slots.filter(|slots| (1..=MOST_SLOTS).contains(slots)) else {
        eprintln!(
            "plain [--slots N] [--line-writes] [--keep-commands] [--tuned] < SCRIPT, with 1 to {MOST_SLOTS} slots"
        );
        return ExitCode::from(2);
    };
    let board = Board::new(slots, keep_commands, tuned);
    match Script::new(board, line_writes).and_then(|mut script| script.run()) {
        Ok(()) => ExitCode::SUCCESS,
        Err(error) => {
            eprintln!("plain: {error}");
            ExitCode::FAILURE
        }
    }
}
