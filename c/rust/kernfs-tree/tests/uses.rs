// SPDX-License-Identifier: MIT OR Apache-2.0
//! What the types and the checks at run time guarantee.

use kernfs_tree::{Error, Gone, Kind, Published, Tree};
use std::sync::atomic::{AtomicBool, AtomicU64, Ordering::SeqCst};
use std::sync::Arc;
use std::time::Duration;

struct Canary(Arc<AtomicU64>, AtomicBool);
impl Drop for Canary {
    fn drop(&mut self) {
        self.1.store(false, SeqCst);
        self.0.fetch_add(1, SeqCst);
    }
}

#[test]
fn object_comes_back_when_no_thread_is_inside() {
    let tree = Tree::new(64, 64).unwrap();
    for turn in 0..100 {
        let owner = tree.publish("/one", vec![turn; 100]).unwrap();
        let mut user = tree.user::<Vec<i32>>("/one").unwrap();
        std::thread::scope(|scope| {
            for _ in 0..3 {
                let mut user = user.dup().unwrap();
                scope.spawn(move || while user.with(|it| assert!(it.iter().all(|it| *it == turn))).is_ok() {});
            }
            let mut object = owner.take();
            object[0] = -1;
        });
        assert_eq!(user.with(|_| ()), Err(Gone));
        assert_eq!(user.dup().unwrap().with(|_| ()), Err(Gone));
    }
}

#[test]
fn owner_that_is_dropped_drops_the_object_once() {
    let (tree, count) = (Tree::new(8, 8).unwrap(), Arc::new(AtomicU64::new(0)));
    let owner = tree.publish("/one", Canary(count.clone(), AtomicBool::new(true))).unwrap();
    let mut user = tree.user::<Canary>("/one").unwrap();
    assert_eq!(user.with(|it| it.1.load(SeqCst)), Ok(true));
    drop(owner);
    assert_eq!(count.load(SeqCst), 1);
    let refused = tree.publish("/no/such", Canary(count.clone(), AtomicBool::new(true)));
    assert_eq!(refused.err(), Some(Error(2)));
    assert_eq!(count.load(SeqCst), 2);
}

#[test]
fn other_type_other_tree_and_plain_file_are_refused() {
    let (tree, other) = (Tree::new(8, 8).unwrap(), Tree::new(8, 8).unwrap());
    let owner = tree.publish("/one", 1u8).unwrap();
    assert_eq!(tree.user::<u16>("/one").err(), Some(Error(91)));
    let mut editor = other.edit();
    let root = editor.root();
    editor.create_file(root, "one", 0o644, true).unwrap();
    assert_eq!(editor.stat(owner.key()), Err(Error(22)));
    drop(editor);
    assert_eq!(other.remove(owner.key()), Err(Error(22)));
    assert_eq!(other.user::<u8>("/one").err(), Some(Error(91)));
    assert_eq!(other.user::<u8>("/two").err().map(Error::kind), Some(std::io::ErrorKind::NotFound));
}

#[test]
fn panic_leaves_the_call() {
    let tree = Tree::new(8, 8).unwrap();
    let owner = tree.publish("/one", 5).unwrap();
    let mut user = tree.user::<i32>("/one").unwrap();
    let panicked = std::panic::catch_unwind(std::panic::AssertUnwindSafe(|| user.with(|_| panic!("on purpose"))));
    assert!(panicked.is_err());
    assert_eq!(user.with(|it| *it), Ok(5));
    assert_eq!(owner.take(), 5);
}

#[test]
fn removal_with_a_limit_returns_the_owner() {
    let tree = Tree::new(8, 8).unwrap();
    let owner = tree.publish("/one", 5).unwrap();
    let mut user = tree.user::<i32>("/one").unwrap();
    let owner: Published<i32> = user
        .with(|_| std::thread::scope(|it| it.spawn(|| owner.take_for(Duration::from_millis(30))).join().unwrap()))
        .unwrap()
        .err()
        .unwrap();
    assert_eq!(user.with(|_| ()), Err(Gone)); // it is marked: nobody enters
    assert_eq!(owner.take(), 5);
}

#[test]
fn files_events_and_self_removal() {
    let tree = Tree::new(8, 8).unwrap();
    let mut editor = tree.edit();
    let root = editor.root();
    let key = editor.create_file(root, "speed", 0o644, true).unwrap();
    let (mut file, mut post) = (editor.open(key, true, true).unwrap(), editor.post(key).unwrap());
    let mut hold = editor.hold(key).unwrap();
    drop(editor.hold(key).unwrap()); // under the lock, it does not wait for itself
    drop(editor);
    let mut out = [0u8; 16];
    let length = file.read(0, &mut out, |text| Ok::<_, Error>(text.extend(b"1200\n"))).unwrap();
    assert_eq!(&out[..length], b"1200\n");
    assert!(!file.is_changed());
    let before = post.event();
    post.notify().unwrap();
    assert_eq!(post.event(), before + 1);
    assert!(file.is_changed());
    assert_eq!(file.write(b"900", |bytes| Ok::<_, Error>(bytes.len())), Ok(3));
    assert_eq!(file.write(b"900", |_| Err(Error(5))), Err(Error(5)));
    assert_eq!(file.write(b"", |_| Err(Error(5))), Ok(0));
    assert_eq!(hold.run(|call| call.remove_self()), Ok(Ok(true)));
    assert_eq!(hold.run(|_| ()), Err(Gone));
    assert_eq!(file.write(b"1", |_| Ok(1)), Err(Error(19)));
    assert_eq!(tree.edit().walk("/speed"), Err(Error(2)));
    assert_eq!(tree.remove(key), Ok(false));
}

#[test]
fn nodes_and_their_names() {
    let tree = Tree::new(16, 8).unwrap();
    let mut editor = tree.edit();
    let root = editor.root();
    let dir = editor.create_dir(root, "d", false).unwrap();
    let file = editor.create_file(dir, "f", 0o600, false).unwrap();
    let link = editor.create_link(root, "l", file, true).unwrap();
    assert_eq!(editor.next(root, ""), Ok(Some("l".to_owned())));
    editor.activate(dir).unwrap();
    assert_eq!(editor.next(root, ""), Ok(Some("d".to_owned())));
    assert_eq!(editor.next(root, "l"), Ok(None));
    assert_eq!(editor.next(file, ""), Err(Error(20)));
    assert_eq!(editor.stat(link).unwrap().kind, Kind::Link);
    assert_eq!(editor.readlink(link), Ok("d/f".to_owned()));
    editor.rename(file, root, "g").unwrap();
    assert_eq!((editor.path(file), editor.find(root, "g")), (Ok("/g".to_owned()), Ok(file)));
    assert_eq!((editor.claim(file), editor.claim(file)), (Ok(true), Ok(false)));
    drop(editor);
    assert_eq!(tree.remove(file), Ok(true));
}

#[test]
fn hidden_file_cannot_be_entered() {
    let tree = Tree::new(8, 8).unwrap();
    let owner = tree.publish("/one", 5).unwrap();
    let mut user = tree.user::<i32>("/one").unwrap();
    tree.hide(owner.key()).unwrap();
    assert_eq!(user.with(|_| ()), Err(Gone));
    assert!(tree.edit().stat(owner.key()).unwrap().is_hidden);
    tree.unhide(owner.key()).unwrap();
    assert_eq!(user.with(|it| *it), Ok(5));
}

#[test]
fn object_of_a_full_node_comes_back_when_a_hold_is_dropped() {
    let tree = Tree::new(8, 2).unwrap();
    let owner = tree.publish("/one", 5).unwrap();
    let mut editor = tree.edit();
    let (first, second) = (editor.hold(owner.key()).unwrap(), editor.hold(owner.key()).unwrap());
    assert_eq!(editor.hold(owner.key()).err(), Some(Error(24)));
    drop(editor);
    assert_eq!(tree.remove(owner.key()), Err(Error(24)));
    std::thread::scope(|scope| {
        let taken = scope.spawn(|| owner.take());
        drop(first);
        assert_eq!(taken.join().unwrap(), 5);
    });
    drop(second);
}

#[test]
#[should_panic(expected = "it would wait for itself")]
fn removal_under_its_own_editor() {
    let tree = Tree::new(8, 8).unwrap();
    let mut editor = tree.edit();
    let root = editor.root();
    let key = editor.create_dir(root, "d", true).unwrap();
    let _ = tree.remove(key);
}

#[test]
#[should_panic(expected = "it would wait for itself")]
fn two_editors_of_one_thread() {
    let tree = Tree::new(8, 8).unwrap();
    let _first = tree.edit();
    let _second = tree.edit();
}

#[cfg(debug_assertions)]
#[test]
fn removal_from_inside_panics() {
    let tree = Tree::new(8, 8).unwrap();
    let mut editor = tree.edit();
    let root = editor.root();
    let dir = editor.create_dir(root, "d", true).unwrap();
    drop(editor);
    let owner = tree.publish("/d/one", 5).unwrap();
    let mut user = tree.user::<i32>("/d/one").unwrap();
    let removal = std::panic::AssertUnwindSafe(|| user.with(|_| tree.remove(dir)));
    let panicked = std::panic::catch_unwind(removal).unwrap_err();
    assert!(panicked.downcast_ref::<&str>().unwrap().contains("a callback would wait for itself"));
    assert_eq!(user.with(|it| *it), Ok(5)); // the call was left, and the node is still there
    assert_eq!(owner.take(), 5);
}
