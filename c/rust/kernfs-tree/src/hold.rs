// SPDX-License-Identifier: MIT OR Apache-2.0
//! What needs no lock: holds, calls, open files and event counters.

use crate::error::{must, Error, Gone, Result, EBUSY, EDEADLK, ENODEV, ENOENT};
use crate::tree::{inside, Handle, Key, Tree};
use crate::PAGE_SIZE;
use kernfs_tree_sys as sys;
use std::cell::Cell;
use std::marker::PhantomData;

/// A hold of a node. It keeps the node's slot from being reused, but does not keep the node in the tree.
#[must_use]
pub struct Hold {
    own: Handle,
    tree: Tree,
    key: Key,
    not_sync: PhantomData<Cell<()>>,
}

impl Hold {
    pub(crate) fn new(own: Handle, tree: Tree, key: Key) -> Self {
        Self { own, tree, key, not_sync: PhantomData }
    }
    fn lock(&self) -> *mut sys::kt_bind_lock {
        self.tree.0.lock.raw()
    }

    /// Runs a closure as a callback of the node. If the node is gone, the closure does not run.
    #[inline]
    pub fn run<R>(&mut self, run: impl FnOnce(&mut Call<'_>) -> R) -> std::result::Result<R, Gone> {
        match unsafe { sys::kt_enter(self.own.raw()) } {
            0 => Ok(run(&mut Call::begun(self))),
            entered => Err(self.refused(entered)),
        }
    }
    #[cold]
    fn refused(&self, entered: i32) -> Gone {
        assert_eq!(entered, -ENODEV, "a hold was not one");
        unsafe { sys::kt_bind_wake(self.lock()) }; // the refused try was counted for a moment
        Gone
    }
    /// Another hold of the node, also if the node is gone, for another thread. EMFILE: only one more hold is possible,
    /// and a removal needs it; ENOMEM.
    pub fn dup(&mut self) -> Result<Self> {
        let mut own = Handle::new()?;
        loop {
            match must(unsafe { sys::kt_dup(self.own.raw(), own.raw()) }) {
                Err(Error(EBUSY)) => std::thread::yield_now(),
                returned => break returned.map(drop)?,
            }
        }
        Ok(Self::new(own, self.tree.clone(), self.key))
    }
    pub fn key(&self) -> Key {
        self.key
    }
}

impl Drop for Hold {
    fn drop(&mut self) {
        let lock = self.lock();
        unsafe { sys::kt_bind_clear(self.own.raw(), lock) };
    }
}

/// What a callback runs under. It ends when the closure does.
pub struct Call<'a> {
    of: &'a mut Hold,
}

impl<'a> Call<'a> {
    fn begun(of: &'a mut Hold) -> Self {
        inside::begins(of);
        Call { of }
    }
    pub fn key(&self) -> Key {
        self.of.key
    }
    /// Runs a closure while no removal waits for this call. Meanwhile the node's owner may free what it owns.
    pub fn aside<R>(&mut self, run: impl FnOnce() -> R) -> R {
        struct Back<'a>(&'a mut Hold);
        impl Drop for Back<'_> {
            fn drop(&mut self) {
                unsafe { sys::kt_restore(self.0.own.raw()) };
                inside::begins(self.0);
            }
        }
        let lock = self.of.lock();
        inside::ends(self.of);
        unsafe { sys::kt_bind_break(self.of.own.raw(), lock) };
        let _back = Back(self.of);
        run()
    }
    /// Removes the call's own node, and waits for all other calls there. Returns whether this was the first to ask for
    /// it. EMFILE: a node has the maximum of holds; ENOMEM: then nothing has changed. Panics if this thread has an
    /// editor of the tree.
    pub fn remove_self(&mut self) -> Result<bool> {
        let (tree, key, lock) = (self.of.tree.0.raw(), self.of.key.raw, self.of.lock());
        match must(unsafe { sys::kt_bind_remove_self(tree, self.of.own.raw(), key, lock) }) {
            Err(Error(EDEADLK)) => panic!("this thread has an editor of the tree: it would wait for itself"),
            Err(Error(ENOENT)) => Ok(false),
            returned => Ok(returned? == 1),
        }
    }
}

impl Drop for Call<'_> {
    #[inline]
    fn drop(&mut self) {
        inside::ends(self.of);
        if unsafe { sys::kt_leave(self.of.own.raw()) } == 1 {
            unsafe { sys::kt_bind_wake(self.of.lock()) };
        }
    }
}

/// An open file: its node, its event counter, and the text of its last show.
#[must_use]
pub struct File(Hold);

impl File {
    pub(crate) fn new(hold: Hold) -> Self {
        Self(hold)
    }
    /// Waiting threads need a wake if a try was refused.
    fn begun(&mut self, begun: i32) -> Result<i64> {
        if begun == -ENODEV {
            unsafe { sys::kt_bind_wake(self.0.lock()) };
        }
        must(begun)
    }
    /// Reads what `show` writes, from an offset on: `show` runs at offset 0 or if there is no text yet. If it fails,
    /// there is no text. EACCES: not opened for reading; ENODEV: the node is not live.
    pub fn read<E: From<Error>>(
        &mut self, offset: u64, out: &mut [u8], show: impl FnOnce(&mut Vec<u8>) -> std::result::Result<(), E>,
    ) -> std::result::Result<usize, E> {
        let begun = unsafe { sys::kt_begin_read(self.0.own.raw(), offset) };
        if self.begun(begun)? == 1 {
            let call = Call::begun(&mut self.0);
            let mut text = Vec::new();
            show(&mut text)?;
            must(unsafe { sys::kt_shown(call.of.own.raw(), text.as_ptr().cast(), text.len()) })?;
        }
        let length = unsafe { sys::kt_copy(self.0.own.raw(), offset, out.as_mut_ptr().cast(), out.len()) };
        Ok(must(length)? as usize)
    }
    /// Returns what `store` returns for these bytes, a page of them at most. Without any byte it is 0, and `store` does
    /// not run. EACCES: not opened for writing; ENODEV: the node is not live.
    pub fn write<E: From<Error>>(
        &mut self, bytes: &[u8], store: impl FnOnce(&[u8]) -> std::result::Result<usize, E>,
    ) -> std::result::Result<usize, E> {
        let begun = unsafe { sys::kt_begin_write(self.0.own.raw()) };
        self.begun(begun)?;
        let _call = Call::begun(&mut self.0);
        if bytes.is_empty() {
            Ok(0)
        } else {
            store(&bytes[..bytes.len().min(PAGE_SIZE)])
        }
    }
    /// Whether the file has changed since its last read, was never read, or is not live.
    pub fn is_changed(&mut self) -> bool {
        self.0.run(|call| unsafe { sys::kt_changed(call.of.own.raw()) } == 1).unwrap_or(true)
    }
}

/// Reads and raises the event counter of a node's slot.
#[must_use]
pub struct Post(Handle, PhantomData<Cell<()>>);

impl Post {
    pub(crate) fn new(own: Handle) -> Self {
        Self(own, PhantomData)
    }
    /// Raises the counter, also if the node is gone. EOVERFLOW: it is at its end.
    pub fn notify(&mut self) -> Result<()> {
        must(unsafe { sys::kt_notify(self.0.raw()) }).map(drop)
    }
    pub fn event(&mut self) -> u64 {
        let mut out = 0;
        unsafe { sys::kt_event(self.0.raw(), &mut out) };
        out
    }
}
