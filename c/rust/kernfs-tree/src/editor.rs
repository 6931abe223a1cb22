// SPDX-License-Identifier: MIT OR Apache-2.0
//! The calls on a tree, which are made under its lock.

use crate::error::{must, Error, Result, EDEADLK, ENOENT, ERANGE};
use crate::hold::{File, Hold, Post};
use crate::tree::{Handle, Inner, Key, Tree};
use kernfs_tree_sys as sys;
use std::ffi::c_void;
use std::marker::PhantomData;

#[derive(Clone, Copy, PartialEq, Eq, Debug)]
pub enum Kind {
    Dir,
    File,
    Link,
}

/// Describes a node.
#[derive(Clone, Copy, PartialEq, Eq, Debug)]
pub struct Stat {
    pub kind: Kind,
    /// Of a directory two and the number of child directories, else 1.
    pub links: u32,
    /// Of a file, its permission bits.
    pub mode: u16,
    pub is_activated: bool,
    /// Marked for removal.
    pub is_doomed: bool,
    pub is_hidden: bool,
}

/// The tree's lock, and the calls that are made under it. Dropping it unlocks.
pub struct Editor<'a> {
    tree: &'a Tree,
    /// The thread that locks also unlocks.
    not_send: PhantomData<*const ()>,
}

impl Drop for Editor<'_> {
    fn drop(&mut self) {
        unsafe { sys::kt_bind_release(self.inner().lock.raw()) };
    }
}

fn text(of: &str) -> *const c_void {
    of.as_ptr().cast()
}

impl<'a> Editor<'a> {
    pub(crate) fn new(tree: &'a Tree) -> Self {
        let taken = unsafe { sys::kt_bind_take(tree.0.lock.raw()) };
        assert_ne!(taken, -EDEADLK, "this thread has an editor of the tree: it would wait for itself");
        Self { tree, not_send: PhantomData }
    }
    fn inner(&self) -> &'a Inner {
        &self.tree.0
    }
    fn raw(&mut self) -> *mut sys::kt_handle {
        self.inner().raw()
    }
    fn key(&mut self, call: impl FnOnce(*mut sys::kt_handle, *mut sys::kt_key) -> i32) -> Result<Key> {
        let mut raw = sys::kt_key::default();
        must(call(self.raw(), &mut raw))?;
        Ok(Key { raw, tree: self.inner().name })
    }

    /// The root's key.
    pub fn root(&mut self) -> Key {
        self.key(|tree, out| unsafe { sys::kt_root(tree, out) }).expect("a tree has a root")
    }
    /// A new directory. ENOENT: there is no such parent, or it is being removed; ENAMETOOLONG; EINVAL: the form of the
    /// name; ENOTDIR; EEXIST; ENOSPC: the tree has no free slot; ENOMEM. A node that is not `live` cannot be entered
    /// before [`Editor::activate`].
    pub fn create_dir(&mut self, parent: Key, name: &str, live: bool) -> Result<Key> {
        let parent = self.tree.own(parent)?;
        self.key(|tree, out| unsafe { sys::kt_create_dir(tree, parent, text(name), name.len(), live, out) })
    }
    /// A new file with these permission bits; the errors of [`Editor::create_dir`].
    pub fn create_file(&mut self, parent: Key, name: &str, mode: u16, live: bool) -> Result<Key> {
        self.create_tagged(parent, name, mode, 0, live)
    }
    /// A file whose tag is the address of an entry, or 0. A program never chooses a tag itself.
    fn create_tagged(&mut self, parent: Key, name: &str, mode: u16, tag: u64, live: bool) -> Result<Key> {
        let parent = self.tree.own(parent)?;
        self.key(|tree, out| unsafe { sys::kt_create_file(tree, parent, text(name), name.len(), mode, tag, live, out) })
    }
    pub(crate) fn create_entry(&mut self, path: &str, tag: u64) -> Result<Key> {
        let (parent, name) = path.rsplit_once('/').ok_or(Error(crate::error::EINVAL))?;
        let dir = if parent.is_empty() { self.root() } else { self.walk(parent)? };
        let key = self.create_tagged(dir, name, 0o600, tag, true)?;
        self.tidy();
        Ok(key)
    }
    /// A new link to a node. It stays when its target is gone.
    pub fn create_link(&mut self, parent: Key, name: &str, target: Key, live: bool) -> Result<Key> {
        let (parent, target) = (self.tree.own(parent)?, self.tree.own(target)?);
        self.key(|tree, out| unsafe { sys::kt_create_link(tree, parent, text(name), name.len(), target, live, out) })
    }
    /// Makes a node and everything below it live.
    pub fn activate(&mut self, key: Key) -> Result<()> {
        let key = self.tree.own(key)?;
        must(unsafe { sys::kt_activate(self.raw(), key) }).map(drop)
    }
    /// Moves a node into a directory, under a name.
    pub fn rename(&mut self, key: Key, dir: Key, name: &str) -> Result<()> {
        let (key, dir) = (self.tree.own(key)?, self.tree.own(dir)?);
        must(unsafe { sys::kt_rename(self.raw(), key, dir, text(name), name.len()) }).map(drop)
    }
    /// The child of this name. ENOENT, ENOTDIR.
    pub fn find(&mut self, dir: Key, name: &str) -> Result<Key> {
        let dir = self.tree.own(dir)?;
        self.key(|tree, out| unsafe { sys::kt_find(tree, dir, text(name), name.len(), out) })
    }
    /// The node at a path such as `/devices/fan0`. EINVAL: the form of the path; ENOENT, ENOTDIR.
    pub fn walk(&mut self, path: &str) -> Result<Key> {
        self.key(|tree, out| unsafe { sys::kt_walk(tree, text(path), path.len(), out) })
    }
    /// The directory of a node. ENOENT; EINVAL: the root has none.
    pub fn parent(&mut self, key: Key) -> Result<Key> {
        let key = self.tree.own(key)?;
        self.key(|tree, out| unsafe { sys::kt_parent(tree, key, out) })
    }
    pub(crate) fn raw_stat(&mut self, key: Key) -> Result<sys::kt_node_info> {
        let key = self.tree.own(key)?;
        let mut it = sys::kt_node_info::default();
        must(unsafe { sys::kt_stat(self.raw(), key, &mut it) })?;
        Ok(it)
    }
    /// Describes a node. ENOENT.
    pub fn stat(&mut self, key: Key) -> Result<Stat> {
        let it = self.raw_stat(key)?;
        let kind = match it.kind {
            sys::KT_DIR => Kind::Dir,
            sys::KT_FILE => Kind::File,
            _ => Kind::Link,
        };
        let sys::kt_node_info { links, mode, activated, doomed, hidden, .. } = it;
        Ok(Stat { kind, links, mode, is_activated: activated, is_doomed: doomed, is_hidden: hidden })
    }
    /// The name of the first live child after this name, in byte order. After an empty name it is the first child.
    pub fn next(&mut self, dir: Key, after: &str) -> Result<Option<String>> {
        let raw = self.tree.own(dir)?;
        let mut name = [0u8; sys::KT_NAME_MAX];
        let (at, size) = (name.as_mut_ptr().cast(), name.len());
        match must(unsafe { sys::kt_next(self.raw(), raw, text(after), after.len(), at, size) }) {
            Ok(length) => Ok(Some(String::from_utf8_lossy(&name[..length as usize]).into_owned())),
            // no other child, or no such directory
            Err(Error(ENOENT)) => self.raw_stat(dir).map(|_| None),
            Err(it) => Err(it),
        }
    }
    /// The path that [`Editor::walk`] follows to a node. ENOENT, ENOMEM.
    pub fn path(&mut self, key: Key) -> Result<String> {
        self.grown(key, sys::kt_path)
    }
    /// The text of a link. ENOENT: the link or its target is not there; EINVAL: it is no link; ENOMEM.
    pub fn readlink(&mut self, key: Key) -> Result<String> {
        self.grown(key, sys::kt_readlink)
    }
    fn grown(
        &mut self, key: Key, call: unsafe extern "C" fn(*mut sys::kt_handle, sys::kt_key, *mut c_void, usize) -> i64,
    ) -> Result<String> {
        let key = self.tree.own(key)?;
        let mut out = vec![0u8; 1024];
        loop {
            match must(unsafe { call(self.raw(), key, out.as_mut_ptr().cast(), out.len()) }) {
                Err(Error(ERANGE)) => out.resize(out.len() * 4, 0),
                length => return Ok(String::from_utf8_lossy(&out[..length? as usize]).into_owned()),
            }
        }
    }
    /// A hold of a node. ENOENT, EMFILE: the node has the maximum of holds; ENOMEM.
    pub fn hold(&mut self, key: Key) -> Result<Hold> {
        let (raw, mut own) = (self.tree.own(key)?, Handle::new()?);
        must(unsafe { sys::kt_hold(self.raw(), raw, own.raw()) })?;
        Ok(Hold::new(own, self.tree.clone(), key))
    }
    /// Opens a file for reading, writing or both. ENOENT, EISDIR, EINVAL: a link; ENODEV: it is not live; EACCES: its
    /// mode does not allow it; EMFILE, ENOMEM.
    pub fn open(&mut self, key: Key, read: bool, write: bool) -> Result<File> {
        let (raw, mut own) = (self.tree.own(key)?, Handle::new()?);
        must(unsafe { sys::kt_open(self.raw(), raw, read, write, own.raw()) })?;
        Ok(File::new(Hold::new(own, self.tree.clone(), key)))
    }
    /// Reads and raises the event counter of a node's slot. ENOENT, ENOMEM.
    pub fn post(&mut self, key: Key) -> Result<Post> {
        let (raw, mut own) = (self.tree.own(key)?, Handle::new()?);
        must(unsafe { sys::kt_event_open(self.raw(), raw, own.raw()) })?;
        Ok(Post::new(own))
    }
    /// Marks a node and all below it, and claims its removal: `true` for the first that does so, who must remove it.
    pub fn claim(&mut self, key: Key) -> Result<bool> {
        let key = self.tree.own(key)?;
        Ok(must(unsafe { sys::kt_claim(self.raw(), key) })? == 0)
    }
    /// Compacts the tree's log if it has at least 1,000 more than twice as many commands as a compaction would leave.
    pub fn tidy(&mut self) {
        let mut count = sys::kt_command_counts::default();
        unsafe {
            if sys::kt_commands(self.raw(), &mut count) == 0 && count.stored >= 2 * count.compacted + 1000 {
                sys::kt_compact(self.raw()); // without memory the next change tries it again
            }
        }
    }
}
