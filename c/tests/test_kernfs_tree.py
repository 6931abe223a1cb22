# SPDX-License-Identifier: MIT OR Apache-2.0
"""Tests kernfs_tree.py:  KERNFS_TREE=.. python3 -m unittest test_kernfs_tree  (the path of the shared library)."""

import errno
import signal
import threading
import time
import unittest

from kernfs_tree import DIR, FILE, LINK, Gone, Key, KtError, Tree


class Calls(unittest.TestCase):
    def setUp(self):
        self.tree = Tree(slots=16, holds=8)
        self.fan = self.tree.create_dir(self.tree.root, "fan0")
        self.speed = self.tree.create_file(self.fan, "speed", 0o644, tag=77)

    def tearDown(self):
        self.tree.close()

    def refused(self, number):
        outer = self

        class Refused:
            def __enter__(self):
                return self

            def __exit__(self, kind, error, _):
                outer.assertIsNotNone(error)
                outer.assertIsInstance(error, KtError)
                outer.assertEqual(errno.errorcode[error.errno], errno.errorcode[number])
                return True

        return Refused()

    def test_looks(self):
        tree = self.tree
        told = tree.stat(self.speed)
        self.assertEqual((told.kind, told.mode, told.tag, told.links), (FILE, 0o644, 77, 1))
        self.assertTrue(told.activated and not told.doomed and not told.hidden)
        self.assertEqual(tree.stat(self.fan).kind, DIR)
        self.assertEqual(tree.root, Key(0, 1))
        self.assertEqual(tree.walk("/fan0/speed"), self.speed)
        self.assertEqual(tree.find(self.fan, b"speed"), self.speed)
        self.assertEqual(tree.parent(self.speed), self.fan)
        self.assertEqual((tree.name(self.speed), tree.path(self.speed)), ("speed", "/fan0/speed"))
        link = tree.create_link(tree.root, "link", self.speed)
        self.assertEqual((tree.stat(link).kind, tree.stat(link).target), (LINK, self.speed))
        self.assertEqual(tree.readlink(link), "fan0/speed")
        self.assertEqual(list(tree.list(tree.root)), ["fan0", "link"])
        with self.refused(errno.ENOTDIR):
            list(tree.list(self.speed))
        with self.refused(errno.ENOENT):
            tree.walk("/fan1")

    def test_changes(self):
        tree = self.tree
        other = tree.create_dir(tree.root, "other", live=False)
        self.assertEqual(list(tree.list(tree.root)), ["fan0"])
        tree.activate(other)
        tree.rename(self.speed, other, "moved")
        self.assertEqual(tree.path(self.speed), "/other/moved")
        with self.refused(errno.EEXIST):
            tree.create_dir(tree.root, "fan0")
        with self.refused(errno.ENAMETOOLONG):
            tree.create_dir(tree.root, "n" * 256)
        with self.refused(errno.EINVAL):
            Tree(slots=0)
        with self.refused(errno.EINVAL):
            tree.create_file(tree.root, "odd", 0o1000)
        self.assertGreater(tree.commands().stored, tree.commands().compacted)
        tree.compact()
        self.assertEqual(tree.commands().stored, tree.commands().compacted)
        names = []
        deep = tree.root
        for _ in range(10):
            names.append("d" * 255)
            deep = tree.create_dir(deep, names[-1])
        self.assertEqual(tree.path(deep), "/" + "/".join(names))

    def test_removal(self):
        tree, hold = self.tree, self.tree.hold(self.speed)
        with hold:
            with self.refused(errno.EAGAIN):
                tree.remove(self.fan)
            with self.refused(errno.ETIMEDOUT):
                tree.remove_wait(self.fan, seconds=0.05)
            self.assertTrue(tree.stat(self.fan).doomed)
            self.assertTrue(tree.claim(self.fan))
            self.assertFalse(tree.claim(self.fan))
        self.assertEqual(tree.remove_wait(self.fan), 1)
        self.assertEqual(tree.remove(self.fan), 0)
        with self.refused(errno.ENOENT):
            tree.remove(Key(self.fan.slot, self.fan.generation + 1))
        with self.refused(errno.ENODEV):
            hold.enter()
        with self.refused(errno.ENOENT):
            tree.stat(self.fan)
        hold.close()
        with self.refused(errno.EBADF):
            hold.enter()

    def test_second_holds(self):
        tree, hold = self.tree, self.tree.hold(self.speed)
        other = hold.dup()
        with hold, other:
            with self.refused(errno.EINVAL):
                hold.dup()
            with self.refused(errno.ETIMEDOUT):
                tree.remove_wait(self.fan, seconds=0.05)
        hold.close()
        self.assertEqual(tree.remove_wait(self.fan), 1)
        gone = other.dup()
        other.close()
        with self.refused(errno.ENODEV):
            gone.enter()
        gone.close()

    def test_full_node(self):
        """On a node full of holds, the close of a hold without a call wakes the thread that waits for a removal."""
        tree = Tree(holds=2)
        file = tree.create_file(tree.root, "file")
        inside = tree.hold(file)
        inside.enter()
        answers = []
        remover = threading.Thread(target=lambda: answers.append(tree.remove_wait(file, seconds=60)))
        remover.start()
        while not tree.stat(file).doomed:
            time.sleep(0.01)
        other = tree.hold(file)
        inside.leave()
        time.sleep(0.1)
        began = time.monotonic()
        other.close()
        inside.close()
        remover.join()
        self.assertEqual(answers, [1])
        self.assertLess(time.monotonic() - began, 30)
        tree.close()

    def test_broken_protection(self):
        hold = self.tree.hold(self.speed)
        hold.enter()
        hold.break_protection()
        self.tree.remove_wait(self.fan)
        hold.restore()
        with self.refused(errno.EINVAL):
            hold.enter()
        hold.close()

    def test_hiding(self):
        tree, hold = self.tree, self.tree.hold(self.speed)
        hold.enter()
        with self.refused(errno.EAGAIN):
            tree.hide(self.speed)
        with self.refused(errno.EBUSY):
            tree.close()
        hold.leave()
        tree.hide_wait(self.speed)
        self.assertTrue(tree.stat(self.speed).hidden)
        self.assertEqual(list(tree.list(self.fan)), [])
        tree.unhide_wait(self.speed)
        self.assertEqual(list(tree.list(self.fan)), ["speed"])
        hold.close()

    def test_files(self):
        tree, stored = self.tree, []
        post = tree.post(self.speed)
        with tree.open(self.speed, "rw") as file:
            self.assertTrue(file.poll())
            self.assertEqual(file.read(lambda: b"1200\n"), b"1200\n")
            self.assertEqual(file.read(lambda: b"other", offset=2), b"00\n")
            self.assertFalse(file.poll())
            before = post.event
            post.notify()
            self.assertEqual(post.event, before + 1)
            self.assertTrue(file.poll())
            self.assertEqual(file.write(b"7", lambda data: stored.append(data) or len(data)), 1)
            self.assertEqual(file.write(b"", stored.append), 0)
            self.assertEqual(stored, [b"7"])
            with self.assertRaises(ZeroDivisionError):
                file.read(lambda: 1 // 0)
            self.assertEqual(len(file.read(lambda: b"x" * 5000)), 4095)
            tree.remove_wait(self.fan)
            with self.refused(errno.ENODEV):
                file.read(lambda: b"")
            self.assertTrue(file.poll())
        with self.refused(errno.EACCES):
            tree.open(tree.create_file(tree.root, "w", 0o200), "r")

    def test_kinds_of_errors(self):
        """An error is a KtError, and the kind of OSError that Python has for its number."""
        tree, hold = self.tree, self.tree.hold(self.speed)
        for kind, call in (
            (FileNotFoundError, lambda: tree.walk("/none")),
            (FileExistsError, lambda: tree.create_dir(tree.root, "fan0")),
            (NotADirectoryError, lambda: tree.walk("/fan0/speed/more")),
            (IsADirectoryError, lambda: tree.open(self.fan)),
            (PermissionError, lambda: tree.open(tree.create_file(tree.root, "w", 0o200))),
        ):
            with self.assertRaises(kind) as caught:
                call()
            self.assertIsInstance(caught.exception, KtError)
        with hold, self.assertRaises(TimeoutError):
            tree.remove_wait(self.fan, seconds=0.01)
        with self.assertRaises(Gone):
            hold.enter()
        with self.assertRaises(KtError) as caught:
            Tree(slots=0)
        self.assertIs(type(caught.exception), KtError)

    def test_self_removal(self):
        tree, hold = self.tree, self.tree.hold(self.speed)
        with hold:
            self.assertTrue(tree.remove_self(hold, self.fan))
            self.assertFalse(tree.remove_self(hold))
        with self.refused(errno.ENOENT):
            tree.walk("/fan0")

    def test_hold_in_two_threads(self):
        """Two threads that share a hold get EINVAL, and no removal hangs after it."""
        hold, wrong = self.tree.hold(self.speed), []

        def use():
            try:
                hold.enter()
            except KtError as error:
                wrong.append(error.errno)

        with hold:
            thread = threading.Thread(target=use)
            thread.start()
            thread.join()
        self.assertEqual(wrong, [errno.EINVAL])
        self.assertEqual(self.tree.remove_wait(self.fan), 1)

    def test_finalizer_under_the_lock(self):
        """A hold that ends while its thread has the tree's lock wakes without waiting for itself."""
        hold = self.tree.hold(self.speed)
        with self.tree._lock, self.tree._lock:
            hold.close()
            self.tree.hold(self.speed).close()
            with self.refused(errno.EDEADLK):
                self.tree.remove_wait(self.fan)
        self.assertEqual(self.tree.remove_wait(self.fan), 1)

    @unittest.skipIf(threading.current_thread() is not threading.main_thread(), "signals need the main thread")
    def test_interrupt_ends_a_wait(self):
        hold = self.tree.hold(self.speed)
        before = signal.signal(signal.SIGALRM, signal.default_int_handler)
        try:
            with hold, self.assertRaises(KeyboardInterrupt):
                signal.setitimer(signal.ITIMER_REAL, 0.05)
                self.tree.remove_wait(self.fan)
        finally:
            signal.signal(signal.SIGALRM, before)
        self.assertEqual(self.tree.remove_wait(self.fan), 1)

    def test_no_callback_after_removal(self):
        """Four threads run callbacks of 50 files that are removed: none runs after the removal."""
        tree, gone, late = self.tree, threading.Event(), []

        def use(hold):
            while True:
                try:
                    with hold:
                        if gone.is_set():
                            late.append(1)
                except KtError:
                    return hold.close()

        for _ in range(50):
            gone.clear()
            file = tree.create_file(self.fan, "f")
            threads = [threading.Thread(target=use, args=(tree.hold(file),)) for _ in range(4)]
            for it in threads:
                it.start()
            tree.remove_wait(file)
            gone.set()
            for it in threads:
                it.join(60)
                self.assertFalse(it.is_alive())
        self.assertEqual(late, [])


if __name__ == "__main__":
    unittest.main()
