// SPDX-License-Identifier: MIT OR Apache-2.0
//! Objects in a tree: an owner publishes one and takes it back, and users call into it.

use crate::error::{Error, Gone, Result, EMFILE, ENOENT, ENOMEM, EPROTOTYPE};
use crate::hold::Hold;
use crate::tree::{Key, Tree};
use std::any::TypeId;
use std::marker::PhantomData;
use std::mem::ManuallyDrop;
use std::ptr::{self, NonNull};
use std::time::Duration;

/// What the tag of a published file points to. The type comes first, whatever the object is.
#[repr(C)]
struct Entry<T> {
    of: TypeId,
    object: T,
}

impl Tree {
    /// Publishes an object as a file at a path, in a directory that is there. ENOENT, ENOTDIR: the directory; EINVAL:
    /// the form of the path; EEXIST: the name is taken; ENOSPC: the tree has no free slot; ENOMEM. Then the object is
    /// dropped.
    pub fn publish<T: Send + Sync + 'static>(&self, path: &str, object: T) -> Result<Published<T>> {
        let entry = Box::new(Entry { of: TypeId::of::<T>(), object });
        let entry = NonNull::from(Box::leak(entry));
        match self.edit().create_entry(path, entry.as_ptr() as u64) {
            Ok(key) => Ok(Published { tree: self.clone(), key, entry, of: PhantomData }),
            Err(it) => {
                // SAFETY: no other thread has seen it
                drop(unsafe { Box::from_raw(entry.as_ptr()) });
                Err(it)
            }
        }
    }

    /// A user of the object at a path. ENOENT: nothing is there; EPROTOTYPE: it is no object, or of another type;
    /// EMFILE: the node has the maximum of holds; ENOMEM.
    pub fn user<T: Send + Sync + 'static>(&self, path: &str) -> Result<User<T>> {
        let mut editor = self.edit();
        let key = editor.walk(path)?;
        let tag = editor.raw_stat(key)?.tag;
        let mut hold = editor.hold(key)?;
        drop(editor);
        // SAFETY: during the call the node is live, so its owner has not freed the entry, which begins with its type
        match hold.run(|_| tag != 0 && unsafe { *(tag as *const TypeId) } == TypeId::of::<T>()) {
            Ok(true) => Ok(User { hold, entry: tag as *const Entry<T>, of: PhantomData }),
            Ok(false) => Err(Error(EPROTOTYPE)),
            Err(Gone) => Err(Error(ENOENT)),
        }
    }
}

/// The owner of a published object. Dropping it removes the node, waits until no call is inside, and drops the object.
#[must_use = "dropping the owner unpublishes the object"]
pub struct Published<T: Send + Sync + 'static> {
    tree: Tree,
    key: Key,
    entry: NonNull<Entry<T>>,
    of: PhantomData<T>,
}

// SAFETY: it owns a `T`, which is `Send` and `Sync`.
unsafe impl<T: Send + Sync + 'static> Send for Published<T> {}
unsafe impl<T: Send + Sync + 'static> Sync for Published<T> {}

impl<T: Send + Sync + 'static> Published<T> {
    pub fn key(&self) -> Key {
        self.key
    }
    /// The object, which exists as long as its owner does.
    pub fn get(&self) -> &T {
        unsafe { &self.entry.as_ref().object }
    }
    /// Removes the node, waits until no call is inside, and returns the object.
    pub fn take(self) -> T {
        self.remove();
        let this = ManuallyDrop::new(self);
        // SAFETY: the node is out of the tree, so no call runs there and none starts; `this` is not dropped
        unsafe {
            drop(ptr::read(&this.tree));
            Box::from_raw(this.entry.as_ptr()).object
        }
    }
    /// The same with a time limit. If a call is still inside then, it returns the owner, and no other call starts.
    pub fn take_for(self, limit: Duration) -> std::result::Result<T, Self> {
        match self.tree.remove_for(self.key, limit) {
            Ok(Some(_)) => Ok(self.take()),
            _ => Err(self),
        }
    }
    /// Asks again if memory or a hold is missing: what nobody owns could not stay.
    fn remove(&self) {
        while let Err(Error(it)) = self.tree.remove(self.key) {
            assert!(it == ENOMEM || it == EMFILE, "the tree lost a node: error {it}");
            std::thread::sleep(Duration::from_millis(10));
        }
    }
}

impl<T: Send + Sync + 'static> Drop for Published<T> {
    fn drop(&mut self) {
        self.remove();
        // SAFETY: the node is out of the tree, so no call runs there and none starts
        drop(unsafe { Box::from_raw(self.entry.as_ptr()) });
    }
}

/// The way of one thread to an object that may go at any time.
#[must_use]
pub struct User<T: Send + Sync + 'static> {
    hold: Hold,
    entry: *const Entry<T>,
    of: PhantomData<fn(&T)>,
}

// SAFETY: it lends `&T` to the thread that has it, and `T` is `Sync`.
unsafe impl<T: Send + Sync + 'static> Send for User<T> {}

impl<T: Send + Sync + 'static> User<T> {
    /// Runs a closure on the object, which exists until the closure returns. If the object is gone, it does not run.
    #[inline]
    pub fn with<R>(&mut self, run: impl FnOnce(&T) -> R) -> std::result::Result<R, Gone> {
        let entry = self.entry;
        // SAFETY: during the call the node is live, and its owner frees the entry after the removal. The closure cannot
        // step aside, because it does not get the call.
        self.hold.run(|_| run(unsafe { &(*entry).object }))
    }
    /// Another user of the object, for another thread, also if the object is gone. EMFILE, ENOMEM.
    pub fn dup(&mut self) -> Result<Self> {
        Ok(Self { hold: self.hold.dup()?, entry: self.entry, of: PhantomData })
    }
}
