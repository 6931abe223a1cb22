// SPDX-License-Identifier: MIT OR Apache-2.0
//! Loads and unloads plug-ins while three threads call into them:  plugin_host CYCLES PLUGIN.so ..
//!
//! A plug-in's code is mapped from `dlopen()` to `dlclose()`. Each thread has a `User`, by which it reaches the plug-in as
//! long as that is published. `take()` returns the plug-in when no thread is in its code; dropping it closes the library.
//! The last line says how many libraries were seen unmapped after that; the status is 1 if one was still mapped.

use kernfs_tree::{Tree, User};
use std::ffi::{c_char, c_int, c_void, CStr, CString};
use std::process::ExitCode;
use std::sync::atomic::{AtomicBool, AtomicU64, Ordering::Relaxed};
use std::time::{Duration, Instant};

extern "C" {
    fn dlopen(path: *const c_char, how: c_int) -> *mut c_void;
    fn dlsym(library: *mut c_void, name: *const c_char) -> *mut c_void;
    fn dlclose(library: *mut c_void) -> c_int;
}
const RTLD_NOW: c_int = 2;
const RTLD_NOLOAD: c_int = 4;

struct Library(*mut c_void);

impl Library {
    fn open(path: &CStr, how: c_int) -> Option<Self> {
        let at = unsafe { dlopen(path.as_ptr(), how) };
        (!at.is_null()).then(|| Self(at))
    }
}
impl Drop for Library {
    fn drop(&mut self) {
        unsafe { dlclose(self.0) };
    }
}

#[repr(C)]
struct Table {
    start: extern "C" fn() -> *mut c_void,
    call: unsafe extern "C" fn(*mut c_void, i64) -> i64,
    stop: unsafe extern "C" fn(*mut c_void),
}

/// A plug-in. Its object goes first (`drop`), then its code (the field).
struct Plugin {
    object: *mut c_void,
    table: *const Table,
    _library: Library,
}
// SAFETY: any thread may call a plug-in, and several at once.
unsafe impl Send for Plugin {}
unsafe impl Sync for Plugin {}

impl Plugin {
    fn load(path: &CStr) -> Option<Self> {
        let library = Library::open(path, RTLD_NOW)?;
        let table = unsafe { dlsym(library.0, c"PLUGIN".as_ptr()) }.cast::<Table>().cast_const();
        let object = unsafe { (table.as_ref()?.start)() };
        Some(Self { object, table, _library: library })
    }
    fn call(&self, by: i64) -> i64 {
        unsafe { ((*self.table).call)(self.object, by) }
    }
}
impl Drop for Plugin {
    fn drop(&mut self) {
        unsafe { ((*self.table).stop)(self.object) };
    }
}

#[derive(Default)]
struct Counts {
    calls: AtomicU64,
    refused: AtomicU64,
    unmapped: AtomicU64,
}

/// Calls each plug-in in turn, and looks it up again when it is gone.
fn work(tree: &Tree, names: &[String], counts: &Counts, is_over: &AtomicBool) {
    let mut users: Vec<Option<User<Plugin>>> = names.iter().map(|_| None).collect();
    while !is_over.load(Relaxed) {
        for (user, name) in users.iter_mut().zip(names) {
            if user.is_none() {
                *user = tree.user(name).ok();
            }
            if let Some(Ok(_)) = user.as_mut().map(|it| it.with(|plugin| plugin.call(1))) {
                counts.calls.fetch_add(1, Relaxed);
            } else {
                counts.refused.fetch_add(1, Relaxed);
                *user = None;
                std::thread::yield_now();
            }
        }
    }
}

/// Loads a plug-in, publishes it, waits for some calls, takes it back and unloads it, again and again.
fn cycle(tree: &Tree, file: &CStr, name: &str, cycles: u64, counts: &Counts) {
    for _ in 0..cycles {
        let plugin = Plugin::load(file).expect("a plug-in");
        let published = tree.publish(name, plugin).expect("published");
        let (before, began) = (counts.calls.load(Relaxed), Instant::now());
        while counts.calls.load(Relaxed) < before + 20 && began.elapsed() < Duration::from_millis(20) {
            std::thread::yield_now();
        }
        drop(published.take()); // no thread is in its code, and none enters: stop(), dlclose()
        let is_unmapped = Library::open(file, RTLD_NOW | RTLD_NOLOAD).is_none();
        counts.unmapped.fetch_add(u64::from(is_unmapped), Relaxed);
    }
}

fn main() -> Result<ExitCode, Box<dyn std::error::Error>> {
    let words: Vec<String> = std::env::args().skip(1).collect();
    let cycles: u64 = words.first().ok_or("plugin_host CYCLES PLUGIN.so ..")?.parse()?;
    let files = words[1..].iter().map(|it| CString::new(it.as_str())).collect::<Result<Vec<_>, _>>()?;
    let names: Vec<String> = (0..files.len()).map(|it| format!("/p{it}")).collect();
    let (tree, counts, is_over) = (Tree::new(64, 64)?, Counts::default(), AtomicBool::new(false));
    std::thread::scope(|scope| {
        for _ in 0..3 {
            scope.spawn(|| work(&tree, &names, &counts, &is_over));
        }
        let (tree, counts) = (&tree, &counts);
        let pairs = files.iter().zip(&names);
        let loaders: Vec<_> =
            pairs.map(|(file, name)| scope.spawn(move || cycle(tree, file, name, cycles, counts))).collect();
        for it in loaders {
            it.join().expect("a loader");
        }
        is_over.store(true, Relaxed);
    });
    let (wanted, unmapped) = (cycles * files.len() as u64, counts.unmapped.into_inner());
    let (calls, refused) = (counts.calls.into_inner(), counts.refused.into_inner());
    println!("{wanted} loads, {calls} calls, {refused} refused");
    println!("{unmapped} unmapped after dlclose()");
    Ok(if unmapped == wanted && calls > 0 { ExitCode::SUCCESS } else { ExitCode::FAILURE })
}
