// SPDX-License-Identifier: MIT OR Apache-2.0
//! Objects that many threads call into, and that one thread takes away: the tree of Linux sysfs (kernfs), a proved
//! library, for Rust over its C interface. This layer is tested, not proved.
//!
//! ```
//! use kernfs_tree::{Gone, Tree};
//!
//! let tree = Tree::new(64, 64)?;
//! let fan = tree.publish("/fan0", String::from("1200"))?; // the owner
//! let mut user = tree.user::<String>("/fan0")?;           // one for each thread: user.dup()
//! assert_eq!(user.with(|speed| speed.len()), Ok(4));       // takes no lock
//! let speed: String = fan.take();                          // waits until nobody is inside: it is ours again
//! assert_eq!(user.with(|speed| speed.len()), Err(Gone));
//! # assert_eq!(speed, "1200");
//! # Ok::<(), kernfs_tree::Error>(())
//! ```
//!
//! # What the types guarantee
//!
//! - A [`User`] reaches the object only inside [`User::with`], and a removal waits for that. So [`Published::take`]
//!   returns the object itself, not a share of it. What the object needs (a plug-in's code, a file, a device) can go then.
//! - A call cannot be leaked. There is no guard to forget: the call ends when the closure does, also by a panic. A leaked
//!   [`Hold`] or [`User`] keeps a slot from being reused, but no removal waits for it. A leaked [`Published`] stays
//!   published.
//! - Each thread has its own `User` or `Hold`. They are `Send` and not `Sync`, and a call takes `&mut self`.
//! - Calls on a tree are methods of an [`Editor`], which has the tree's lock. A key of another tree is refused
//!   (`EINVAL`).
//! - A thread that would wait for itself panics: always if it removes while it has an [`Editor`], and with
//!   `debug_assertions` if it removes from inside the same node or one below it.
//!
//! If a closure never ends, a removal never ends. [`Published::take_for`] has a time limit.
//!
//! # What does not compile
//!
//! A reference that outlives its call:
//! ```compile_fail,E0521
//! # let tree = kernfs_tree::Tree::new(8, 8).unwrap();
//! # let owner = tree.publish("/one", String::new()).unwrap();
//! let mut user = tree.user::<String>("/one").unwrap();
//! let mut kept: Option<&String> = None;
//! user.with(|it| kept = Some(it)).unwrap();
//! ```
//! A `User` that two threads share:
//! ```compile_fail,E0277
//! fn shared_by_threads<T: Sync>() {}
//! shared_by_threads::<kernfs_tree::User<u8>>();
//! ```
//! An object that other threads may not use:
//! ```compile_fail,E0277
//! # let tree = kernfs_tree::Tree::new(8, 8).unwrap();
//! let owner = tree.publish("/one", std::cell::Cell::new(1));
//! ```
//! An editor that moves to another thread:
//! ```compile_fail,E0277
//! # let tree = kernfs_tree::Tree::new(8, 8).unwrap();
//! let editor = tree.edit();
//! std::thread::scope(|scope| { scope.spawn(move || drop(editor)); });
//! ```
//! An owner that is used after the object was taken:
//! ```compile_fail,E0382
//! # let tree = kernfs_tree::Tree::new(8, 8).unwrap();
//! let owner = tree.publish("/one", 1).unwrap();
//! let one = owner.take();
//! owner.get();
//! ```

mod editor;
mod error;
mod hold;
mod published;
mod tree;

pub use editor::{Editor, Kind, Stat};
pub use error::{Error, Gone, Result};
pub use hold::{Call, File, Hold, Post};
pub use published::{Published, User};
pub use tree::{Key, Tree};

/// The most bytes that a file shows, and that a store takes at once (the kernel's `PAGE_SIZE`).
pub const PAGE_SIZE: usize = kernfs_tree_sys::KT_PAGE_SIZE;
