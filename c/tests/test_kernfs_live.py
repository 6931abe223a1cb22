# SPDX-License-Identifier: MIT OR Apache-2.0
"""Tests kernfs_live.py:  KERNFS_TREE=.. python3 -m unittest test_kernfs_live  (the path of the shared library)."""

import errno
import threading
import unittest

from kernfs_live import SLICE, Attribute, Gone, Key, KtError, Live


class Fan:
    """A device that says if a callback runs in it after it was taken back."""

    def __init__(self):
        self.speed, self.target, self.is_taken, self.late = 1200, "0", False, 0

    def show_speed(self):
        self.late += self.is_taken
        return f"{self.speed}\n"

    def show_target(self):
        return self.target.encode()

    def store_target(self, data):
        self.late += self.is_taken
        self.target = data.decode()

    def store_odd(self, data):
        raise {b"value": ValueError("odd"), b"perm": PermissionError(errno.EPERM, "no")}[data]


ATTRIBUTES = {
    "speed": Attribute(Fan.show_speed),
    "target": Attribute(Fan.show_target, Fan.store_target),
    "odd": Attribute(store=Fan.store_odd),
    "some": Attribute(store=lambda fan, data: 2),
}


class Devices(unittest.TestCase):
    def setUp(self):
        self.live, self.fan = Live(64), Fan()
        self.key = self.live.publish("/fan0", self.fan, ATTRIBUTES)

    def tearDown(self):
        for name in list(self.live.list()):
            self.live.unpublish(f"/{name}")
        self.live.close()

    def test_attributes(self):
        live = self.live
        self.assertEqual(live.read("/fan0/speed"), b"1200\n")
        self.assertEqual(live.write("/fan0/target", "900"), 3)
        self.assertEqual((self.fan.target, live.read("/fan0/target")), ("900", b"900"))
        self.assertEqual((live.write("/fan0/some", b"12345"), live.write("/fan0/target", b"")), (2, 0))
        self.assertEqual(list(live.list("/fan0")), ["odd", "some", "speed", "target"])
        self.assertEqual(list(live.list()), ["fan0"])
        with self.assertRaises(PermissionError):
            live.write("/fan0/speed", "1")
        with self.assertRaises(FileNotFoundError):
            live.read("/fan1/speed")
        with self.assertRaises(IsADirectoryError):
            live.read("/fan0")
        with self.assertRaises(KtError) as caught:
            live.publish("/odd", Fan(), {"odd": Attribute(mode=0o444)})
        self.assertEqual(caught.exception.errno, errno.EINVAL)
        with self.assertRaises(FileExistsError):
            live.publish("/fan0")

    def test_callbacks_that_raise(self):
        with self.assertRaises(ValueError):
            self.live.write("/fan0/odd", "value")
        with self.assertRaises(PermissionError):
            self.live.write("/fan0/odd", "perm")
        with self.assertRaises(KeyError):
            self.live.write("/fan0/odd", "other")
        self.assertEqual(self.live.read("/fan0/speed"), b"1200\n")

    def test_devices(self):
        live = self.live
        self.assertEqual((live.key("/fan0"), live.run("/fan0", lambda fan: fan.speed)), (self.key, 1200))
        with self.assertRaises(ZeroDivisionError):
            live.run("/fan0", lambda fan: 1 // 0)
        self.assertIsNone(live.self())
        with self.assertRaises(KtError) as caught:
            live.close()
        self.assertEqual(caught.exception.errno, errno.EBUSY)
        live.publish("/bus")
        below = live.publish("/bus/fan1", Fan(), ATTRIBUTES)
        self.assertIsInstance(below, Key)
        self.assertIsNone(live.unpublish("/bus"))  # a plain directory has no object
        self.assertIsInstance(live.unpublish(below), Fan)
        self.assertIs(live.unpublish("/fan0"), self.fan)
        with self.assertRaises(FileNotFoundError):
            live.unpublish(self.key)

    def test_self_removal(self):
        live, seen = self.live, []

        def close(fan, data):
            seen.append(live.unpublish(live.self()) is fan)
            seen.append(live.self())

        live.publish("/fan1", Fan(), {"close": Attribute(store=close)})
        self.assertEqual(live.write("/fan1/close", "1"), 1)
        self.assertEqual((seen, list(live.list())), ([True, None], ["fan0"]))

    def test_self_removal_beside_another(self):
        """A callback unpublishes its own device, while another one stays inside for longer than one sleep in C."""
        live, seen = self.live, []

        def removed(seconds):
            inside, may_end = threading.Event(), threading.Event()

            def slow(fan):
                inside.set()
                may_end.wait(60)
                return "slow"

            def close(fan, data):
                inside.wait(60)
                threading.Timer(3 * SLICE / 1000, may_end.set).start()
                seen.append(live.unpublish(live.self(), seconds) is fan)

            live.publish("/fan1", Fan(), {"own": Attribute(slow, close)})
            reader = threading.Thread(target=live.read, args=("/fan1/own",))
            closer = threading.Thread(target=live.write, args=("/fan1/own", "1"), daemon=True)
            for it in (reader, closer):
                it.start()
            for it in (reader, closer):
                it.join(20)

        removed(None)
        removed(10)
        self.assertEqual(seen, [True, True])

    def test_nested_reads(self):
        live = self.live

        def outer(fan):
            try:
                live.write("/fan0/odd", "value")
            except ValueError:
                return live.read("/fan0/speed") + b"more"

        live.publish("/fan1", Fan(), {"outer": Attribute(outer)})
        self.assertEqual(live.read("/fan1/outer"), b"1200\nmore")

    def test_open_files(self):
        live = self.live
        with live.open("/fan0/target", write=True) as target, live.open("/fan0/odd", read=False, write=True) as odd:
            self.assertTrue(target.changed())
            self.assertEqual((target.read(), target.changed(), target.write("900"), target.read()), (b"0", False, 3, b"900"))
            live.notify(self.key, "target")
            self.assertTrue(target.changed())
            with self.assertRaises(ValueError):
                odd.write("value")
            with self.assertRaises(PermissionError):
                odd.read()
            live.unpublish("/fan0")
            for again in (target.read, lambda: target.write("1")):
                with self.assertRaises(Gone):
                    again()
            self.assertTrue(target.changed())
            with self.assertRaises(KtError) as caught:
                live.close()
            self.assertEqual(caught.exception.errno, errno.EBUSY)
        with self.assertRaises(OSError):
            target.read()
        with self.assertRaises(FileNotFoundError):
            live.open("/fan0/target")

    def test_time_limit(self):
        """A reader is inside while its device is to be unpublished: the remover sees who that is."""
        live, inside, may_end, lines, texts = self.live, threading.Event(), threading.Event(), [], []

        def slow(device):
            inside.set()
            may_end.wait(60)
            return "slow"

        device = Fan()
        key = live.publish("/slow", device, {"speed": Attribute(slow)})
        reader = threading.Thread(target=lambda: lines.append(live.read("/slow/speed")))
        reader.start()
        self.assertTrue(inside.wait(60))
        live.warn(0.01, texts.append)
        with self.assertRaises(TimeoutError):
            live.unpublish("/slow", 0.3)
        live.warn(None)
        self.assertTrue(texts and all(it.startswith("/slow/speed: a show is inside, thread 0x") for it in texts), texts)
        self.assertEqual((len(live.inside()), live.inside("/fan0")), (1, []))
        with self.assertRaises((FileNotFoundError, Gone)):
            live.read("/slow/speed")
        may_end.set()
        self.assertIs(live.unpublish(key, 60), device)
        reader.join(60)
        self.assertEqual((lines, live.inside()), ([b"slow"], []))

    def test_release(self):
        live, seen = self.live, []

        def end(device, data):
            seen.append(live.unpublish(live.self()) is device)
            seen.append("callback")

        def publish(device):
            return live.publish("/one", device, {"end": Attribute(store=end)}, lambda: seen.append("released"))

        publish(Fan())
        with self.assertRaises(FileExistsError):
            publish(Fan())
        self.assertEqual((live.write("/one/end", "1"), seen), (1, [True, "callback", "released"]))
        other = Fan()
        publish(other)
        self.assertIs(live.unpublish("/one"), other)
        self.assertEqual(seen[3:], ["released"])

    def test_watch(self):
        live = self.live
        with live.watch("/fan0/speed") as watch, live.watch("/fan1") as other:
            self.assertFalse(watch.wait(0))
            live.notify(self.key, "speed")
            self.assertTrue(watch.wait(10))
            self.assertFalse(watch.wait(0) or other.wait(0))
            live.publish("/fan1", Fan(), ATTRIBUTES)
            self.assertTrue(other.wait(10))
            live.unpublish("/fan0")
            self.assertTrue(watch.wait(10))

    def test_unpublished_under_load(self):
        """Three threads use a fan that is taken back 100 times: no callback runs in it after that."""
        live, is_over, late = self.live, threading.Event(), []

        def use():
            while not is_over.is_set():
                try:
                    live.read("/load/speed")
                    live.write("/load/target", "1")
                except (FileNotFoundError, Gone):
                    pass

        threads = [threading.Thread(target=use) for _ in range(3)]
        for it in threads:
            it.start()
        for _ in range(100):
            live.publish("/load", Fan(), ATTRIBUTES)
            fan = live.unpublish("/load")
            fan.is_taken = True
            late.append(fan)
        is_over.set()
        for it in threads:
            it.join(60)
        self.assertEqual(sum(it.late for it in late), 0)


if __name__ == "__main__":
    unittest.main()
