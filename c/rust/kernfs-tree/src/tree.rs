// SPDX-License-Identifier: MIT OR Apache-2.0
//! A tree, its lock, and the calls that wait until nobody is inside.

use crate::editor::Editor;
use crate::error::{must, Error, Result, EDEADLK, ETIMEDOUT};
use kernfs_tree_sys as sys;
use std::cell::UnsafeCell;
use std::ptr;
use std::sync::atomic::{AtomicU64, Ordering::Relaxed};
use std::sync::Arc;
use std::time::Duration;

/// Names a node of one tree. No key is used twice.
#[derive(Clone, Copy, PartialEq, Eq, Hash, Debug)]
pub struct Key {
    pub(crate) raw: sys::kt_key,
    pub(crate) tree: u64,
}

/// Owns a handle, from `kt_new` to `kt_delete`.
pub(crate) struct Handle(sys::kt_handle);

// SAFETY: a handle is used by one function at a time, and may pass to another thread by what orders memory.
unsafe impl Send for Handle {}

impl Handle {
    pub(crate) fn new() -> Result<Self> {
        let mut at = ptr::null_mut();
        must(unsafe { sys::kt_new(&mut at) })?;
        Ok(Self(sys::kt_handle { at }))
    }
    pub(crate) fn raw(&mut self) -> *mut sys::kt_handle {
        &mut self.0
    }
}

impl Drop for Handle {
    fn drop(&mut self) {
        // A tree that is hiding a file is not freed (EBUSY): its memory stays until the program ends.
        unsafe { sys::kt_delete(sys::kt_handle { at: self.0.at }) };
    }
}

/// The lock of a tree, which knows the thread that has it.
pub(crate) struct Lock(*mut sys::kt_bind_lock);

impl Lock {
    fn new() -> Result<Self> {
        let mut at = ptr::null_mut();
        must(unsafe { sys::kt_bind_new_lock(&mut at) })?;
        Ok(Self(at))
    }
    pub(crate) fn raw(&self) -> *mut sys::kt_bind_lock {
        self.0
    }
}

impl Drop for Lock {
    fn drop(&mut self) {
        unsafe { sys::kt_bind_delete_lock(self.0) };
    }
}

pub(crate) struct Inner {
    handle: UnsafeCell<Handle>,
    pub(crate) lock: Lock,
    /// Of all trees of the program, so that a key of another tree is refused.
    pub(crate) name: u64,
}

// SAFETY: `handle` is only used under `lock`, which any thread may take.
unsafe impl Send for Inner {}
unsafe impl Sync for Inner {}

impl Inner {
    /// The tree's handle, for C functions that are called under the lock or take it.
    pub(crate) fn raw(&self) -> *mut sys::kt_handle {
        // SAFETY: this makes a pointer only; what is behind it is used under the lock
        unsafe { (*self.handle.get()).raw() }
    }
}

/// A tree of directories, files and links. Each clone is the same tree. It has its own lock.
#[derive(Clone)]
pub struct Tree(pub(crate) Arc<Inner>);

/// A step that sleeps until nobody is inside: a removal or a hiding.
type Wait = unsafe extern "C" fn(*mut sys::kt_handle, sys::kt_key, *mut sys::kt_bind_lock, i64) -> i32;

impl Tree {
    /// A tree of only the root. `slots` is the maximum of nodes at once, also those that are gone and still held;
    /// `holds` is that of holds of one node. EINVAL: a limit is 0 or too large; ENOMEM.
    pub fn new(slots: u32, holds: u32) -> Result<Self> {
        static NAMES: AtomicU64 = AtomicU64::new(1);
        let version = sys::KT_VERSION_MAJOR * 1000 + sys::KT_VERSION_MINOR;
        assert_eq!(unsafe { sys::kt_version() }, version, "another version of the C library is linked");
        let mut handle = Handle::new()?;
        must(unsafe { sys::kt_create_root(handle.raw(), slots, holds) })?;
        let (lock, name) = (Lock::new()?, NAMES.fetch_add(1, Relaxed));
        Ok(Self(Arc::new(Inner { handle: UnsafeCell::new(handle), lock, name })))
    }

    /// Takes the lock until the editor is dropped. Panics if this thread has an editor of the tree already.
    pub fn edit(&self) -> Editor<'_> {
        Editor::new(self)
    }

    /// Removes a node and all below it, and waits until no callback runs there. Returns whether this call took it out.
    /// (If a callback calls [`Call::remove_self`](crate::Call::remove_self) meanwhile, that may return true too, or
    /// instead: [`Editor::claim`](crate::Editor::claim) says which thread frees.)
    /// ENOENT: this tree never gave out the key; EINVAL: the root; EMFILE: a node has the maximum of holds; ENOMEM.
    pub fn remove(&self, key: Key) -> Result<bool> {
        Ok(self.wait(key, sys::kt_bind_remove, None)? == Some(1))
    }

    /// The same with a time limit. `None`: somebody is still inside. All stays marked; call it again.
    pub fn remove_for(&self, key: Key, limit: Duration) -> Result<Option<bool>> {
        Ok(self.wait(key, sys::kt_bind_remove, Some(limit))?.map(|it| it == 1))
    }

    /// Hides a file, and waits until no callback runs there.
    pub fn hide(&self, key: Key) -> Result<()> {
        self.wait(key, sys::kt_bind_hide, None).map(drop)
    }

    /// Shows a hidden file again.
    pub fn unhide(&self, key: Key) -> Result<()> {
        self.wait(key, sys::kt_bind_unhide, None).map(drop)
    }

    fn wait(&self, key: Key, step: Wait, limit: Option<Duration>) -> Result<Option<i64>> {
        let raw = self.own(key)?;
        inside::check(self, key);
        let limit = limit.map_or(-1, |it| i64::try_from(it.as_millis()).unwrap_or(i64::MAX));
        // SAFETY: the step takes the lock, and so uses the tree by itself
        match must(unsafe { step(self.0.raw(), raw, self.0.lock.raw(), limit) }) {
            Err(Error(ETIMEDOUT)) => Ok(None),
            Err(Error(EDEADLK)) => panic!("this thread has an editor of the tree: it would wait for itself"),
            returned => returned.map(Some),
        }
    }

    /// The key in C, if it is one of this tree.
    pub(crate) fn own(&self, key: Key) -> Result<sys::kt_key> {
        if key.tree == self.0.name {
            Ok(key.raw)
        } else {
            Err(Error(crate::error::EINVAL))
        }
    }
}

/// With debug assertions: which nodes this thread is inside, so that it is not left waiting for itself.
pub(crate) mod inside {
    use super::{Key, Tree};
    use crate::hold::Hold;

    #[cfg(debug_assertions)]
    thread_local! {
        static HERE: std::cell::RefCell<Vec<Key>> = const { std::cell::RefCell::new(Vec::new()) };
    }

    #[cfg(debug_assertions)]
    pub(crate) fn begins(hold: &Hold) {
        HERE.with(|it| it.borrow_mut().push(hold.key()));
    }

    #[cfg(debug_assertions)]
    pub(crate) fn ends(hold: &Hold) {
        HERE.with(|it| {
            let mut it = it.borrow_mut();
            if let Some(at) = it.iter().rposition(|one| *one == hold.key()) {
                it.remove(at);
            }
        });
    }

    /// Panics if this thread is inside the node or one below it.
    #[cfg(debug_assertions)]
    pub(crate) fn check(tree: &Tree, key: Key) {
        let here: Vec<Key> = HERE.with(|it| it.borrow().iter().filter(|it| it.tree == key.tree).copied().collect());
        if here.is_empty() {
            return;
        }
        let mut editor = tree.edit();
        for mut at in here {
            while at != key {
                match editor.parent(at) {
                    Ok(above) => at = above,
                    Err(_) => break,
                }
            }
            assert!(at != key, "a callback would wait for itself: step aside, or ask another thread");
        }
    }

    #[cfg(not(debug_assertions))]
    pub(crate) fn begins(_: &Hold) {}
    #[cfg(not(debug_assertions))]
    pub(crate) fn ends(_: &Hold) {}
    #[cfg(not(debug_assertions))]
    pub(crate) fn check(_: &Tree, _: Key) {}
}
