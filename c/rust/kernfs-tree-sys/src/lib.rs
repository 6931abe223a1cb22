// SPDX-License-Identifier: MIT OR Apache-2.0
//! The functions of `kernfs_tree.h`, and those of `kt_bind.h` except `kt_bind_run()`, `kt_bind_read()`,
//! `kt_bind_write()` and `kt_bind_poll()`, as they are in C. The headers say what each needs and returns.
#![no_std]
#![allow(non_camel_case_types)]

use core::ffi::c_void;

#[repr(C)]
#[derive(Debug)]
pub struct kt_handle {
    pub at: *mut c_void,
}

#[repr(C)]
#[derive(Clone, Copy, Debug, Default, PartialEq, Eq, Hash, PartialOrd, Ord)]
pub struct kt_key {
    pub slot: u32,
    pub generation: u32,
}

pub const KT_DIR: u32 = 0;
pub const KT_FILE: u32 = 1;
pub const KT_LINK: u32 = 2;

#[repr(C)]
#[derive(Clone, Copy, Debug, Default)]
pub struct kt_node_info {
    pub tag: u64,
    pub target: kt_key,
    pub kind: u32,
    pub links: u32,
    pub mode: u16,
    pub activated: bool,
    pub doomed: bool,
    pub hidden: bool,
}

#[repr(C)]
#[derive(Clone, Copy, Debug, Default)]
pub struct kt_node_counts {
    pub holds: u32,
    pub users: u32,
}

#[repr(C)]
#[derive(Clone, Copy, Debug, Default)]
pub struct kt_command_counts {
    pub stored: u64,
    pub compacted: u64,
}

/// The lock of a tree (`kt_bind.h`).
#[repr(C)]
pub struct kt_bind_lock {
    _private: [u8; 0],
}

pub const KT_VERSION_MAJOR: i32 = 0;
pub const KT_VERSION_MINOR: i32 = 4;
pub const KT_PAGE_SIZE: usize = 4096;
pub const KT_SLOTS_MAX: u32 = 1048576;
pub const KT_HOLDS_MAX: u32 = 65535;
pub const KT_NAME_MAX: usize = 255;

extern "C" {
    pub fn kt_version() -> i32;
    pub fn kt_new(at: *mut *mut c_void) -> i32;
    pub fn kt_clear(handle: *mut kt_handle) -> i32;
    pub fn kt_delete(handle: kt_handle) -> i32;
    pub fn kt_create_root(tree: *mut kt_handle, slots: u32, holds: u32) -> i32;
    pub fn kt_create_root_with_looks(tree: *mut kt_handle, slots: u32, holds: u32, looks: u32) -> i32;
    pub fn kt_root(tree: *mut kt_handle, out: *mut kt_key) -> i32;
    pub fn kt_create_dir(
        tree: *mut kt_handle, parent: kt_key, name: *const c_void, length: usize, live: bool, out: *mut kt_key,
    ) -> i32;
    pub fn kt_create_file(
        tree: *mut kt_handle, parent: kt_key, name: *const c_void, length: usize, mode: u16, tag: u64, live: bool,
        out: *mut kt_key,
    ) -> i32;
    pub fn kt_create_link(
        tree: *mut kt_handle, parent: kt_key, name: *const c_void, length: usize, target: kt_key, live: bool,
        out: *mut kt_key,
    ) -> i32;
    pub fn kt_activate(tree: *mut kt_handle, key: kt_key) -> i32;
    pub fn kt_rename(tree: *mut kt_handle, key: kt_key, dir: kt_key, name: *const c_void, length: usize) -> i32;
    pub fn kt_find(tree: *mut kt_handle, dir: kt_key, name: *const c_void, length: usize, out: *mut kt_key) -> i32;
    pub fn kt_walk(tree: *mut kt_handle, path: *const c_void, length: usize, out: *mut kt_key) -> i32;
    pub fn kt_next(
        tree: *mut kt_handle, dir: kt_key, after: *const c_void, length: usize, name: *mut c_void, size: usize,
    ) -> i64;
    pub fn kt_stat(tree: *mut kt_handle, key: kt_key, out: *mut kt_node_info) -> i32;
    pub fn kt_counts(tree: *mut kt_handle, key: kt_key, out: *mut kt_node_counts) -> i32;
    pub fn kt_parent(tree: *mut kt_handle, key: kt_key, out: *mut kt_key) -> i32;
    pub fn kt_name(tree: *mut kt_handle, key: kt_key, name: *mut c_void, size: usize) -> i64;
    pub fn kt_path(tree: *mut kt_handle, key: kt_key, path: *mut c_void, size: usize) -> i64;
    pub fn kt_readlink(tree: *mut kt_handle, key: kt_key, text: *mut c_void, size: usize) -> i64;
    pub fn kt_hold(tree: *mut kt_handle, key: kt_key, hold: *mut kt_handle) -> i32;
    pub fn kt_looker(tree: *mut kt_handle, looker: *mut kt_handle) -> i32;
    pub fn kt_remove(tree: *mut kt_handle, key: kt_key) -> i32;
    pub fn kt_hide(tree: *mut kt_handle, key: kt_key) -> i32;
    pub fn kt_unhide(tree: *mut kt_handle, key: kt_key) -> i32;
    pub fn kt_claim(tree: *mut kt_handle, key: kt_key) -> i32;
    pub fn kt_compact(tree: *mut kt_handle) -> i32;
    pub fn kt_commands(tree: *mut kt_handle, out: *mut kt_command_counts) -> i32;
    pub fn kt_event_open(tree: *mut kt_handle, key: kt_key, post: *mut kt_handle) -> i32;
    pub fn kt_open(tree: *mut kt_handle, key: kt_key, read: bool, write: bool, file: *mut kt_handle) -> i32;
    pub fn kt_dup(hold: *mut kt_handle, other: *mut kt_handle) -> i32;
    pub fn kt_look(looker: *mut kt_handle, path: *const c_void, length: usize, out: *mut kt_key) -> i32;
    pub fn kt_pin(looker: *mut kt_handle, key: kt_key, hold: *mut kt_handle) -> i32;
    pub fn kt_enter(hold: *mut kt_handle) -> i32;
    pub fn kt_leave(call: *mut kt_handle) -> i32;
    pub fn kt_break(call: *mut kt_handle) -> i32;
    pub fn kt_restore(call: *mut kt_handle) -> i32;
    pub fn kt_gate(hold: *mut kt_handle, lanes: u32, pass: *mut kt_handle) -> i32;
    pub fn kt_pass(pass: *mut kt_handle, lane: u32, other: *mut kt_handle) -> i32;
    pub fn kt_pass_enter(pass: *mut kt_handle) -> i32;
    pub fn kt_pass_leave(pass: *mut kt_handle) -> i32;
    pub fn kt_shut(gate: *mut kt_handle) -> i32;
    pub fn kt_notify(post: *mut kt_handle) -> i32;
    pub fn kt_event(post: *mut kt_handle, out: *mut u64) -> i32;
    pub fn kt_begin_read(file: *mut kt_handle, offset: u64) -> i32;
    pub fn kt_shown(file: *mut kt_handle, text: *const c_void, length: usize) -> i32;
    pub fn kt_copy(file: *mut kt_handle, offset: u64, out: *mut c_void, size: usize) -> i64;
    pub fn kt_begin_write(file: *mut kt_handle) -> i32;
    pub fn kt_changed(file: *mut kt_handle) -> i32;

    pub fn kt_bind_new_lock(out: *mut *mut kt_bind_lock) -> i32;
    pub fn kt_bind_delete_lock(lock: *mut kt_bind_lock);
    pub fn kt_bind_take(lock: *mut kt_bind_lock) -> i32;
    pub fn kt_bind_release(lock: *mut kt_bind_lock);
    pub fn kt_bind_is_mine(lock: *mut kt_bind_lock) -> bool;
    pub fn kt_bind_wake(lock: *mut kt_bind_lock);
    pub fn kt_bind_enter(hold: *mut kt_handle, lock: *mut kt_bind_lock) -> i32;
    pub fn kt_bind_leave(call: *mut kt_handle, lock: *mut kt_bind_lock) -> i32;
    pub fn kt_bind_break(call: *mut kt_handle, lock: *mut kt_bind_lock) -> i32;
    pub fn kt_bind_clear(handle: *mut kt_handle, lock: *mut kt_bind_lock) -> i32;
    pub fn kt_bind_delete(handle: kt_handle, lock: *mut kt_bind_lock) -> i32;
    pub fn kt_bind_remove(tree: *mut kt_handle, key: kt_key, lock: *mut kt_bind_lock, milliseconds: i64) -> i32;
    pub fn kt_bind_hide(tree: *mut kt_handle, key: kt_key, lock: *mut kt_bind_lock, milliseconds: i64) -> i32;
    pub fn kt_bind_unhide(tree: *mut kt_handle, key: kt_key, lock: *mut kt_bind_lock, milliseconds: i64) -> i32;
    pub fn kt_bind_remove_self(
        tree: *mut kt_handle, call: *mut kt_handle, key: kt_key, lock: *mut kt_bind_lock,
    ) -> i32;
}
