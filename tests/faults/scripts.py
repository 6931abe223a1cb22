# SPDX-License-Identifier: MIT OR Apache-2.0
"""The scripts that run while something fails."""

ONE_CALLER, ONE_WORKER = (), ("--workers", "1")
SLOTS = 4096

# By name, the scripts for one caller and for the owner of a tree with one worker, and their replies, worked out by hand.
BY_BOTH = {
    "nodes": (
        "mkdir /a ; mkdir /a/b ; file /a/x 644 5 ; ls /a ; stat /a ; commands ; mkdir /a/c ; ls /a ; ls /",
        "ok 1.1 ; ok 2.1 ; ok 3.1 ; b x ; dir subdirs=1 nlink=3 live ; 3 ; ok 4.1 ; b c x ; a",
    ),
    "removal": (
        "mkdir /a ; mkdir /a ; file /a/x 644 v ; rm /a ; ls / ; rm /a ; mkdir /a ; file /a/x 644 w ; commands ; "
        "stat /a ; ls /",
        "ok 1.1 ; err Exists 17 ; ok 2.1 ; ok ;  ; err NoEntry 2 ; ok 1.2 ; ok 2.2 ; 7 ; "
        "dir subdirs=0 nlink=2 live ; a",
    ),
    "forest": (
        "mkdir /p ; mkdir /p/q ; file /p/q/x 444 1 ; file /p/y 444 2 ; rm /p/q ; ls /p ; rm /p ; commands ; "
        "mkdir /r ; mkdir /s ; mkdir /t ; mkdir /u ; ls /",
        "ok 1.1 ; ok 2.1 ; ok 3.1 ; ok 4.1 ; ok ; y ; ok ; 10 ; ok 1.2 ; ok 2.2 ; ok 3.2 ; ok 4.2 ; r s t u",
    ),
    "activation": (
        "mkdir /a off ; mkdir /a/b off ; ls / ; mkdir /a ; activate /a ; ls / ; ls /a ; stat /a/b ; commands",
        "ok 1.1 ; ok 2.1 ;  ; err Exists 17 ; ok ; a ; b ; dir subdirs=0 nlink=2 live ; 3",
    ),
    "pages": (
        "file /t 644 abcd ; open f /t r ; open g /t w ; read f 0 4 ; write g wxyz ; read f 2 4 ; read f 0 4",
        "ok 1.1 ; ok ; ok ; abcd ; 4 ; cd ; wxyz",
    ),
    "old text": (
        "file /t 644 abcd ; open f /t rw ; write f ; read f 0 4 ; rm /t ; read f 1 4 ; read f 0 4 ; write f ; "
        "read f 2 4",
        "ok 1.1 ; ok ; 0 ; abcd ; ok ; bcd ; err NoDevice 19 ; err NoDevice 19 ; cd",
    ),
    "poll": (
        "file /t 644 v ; open f /t r ; poll f ; read f 0 9 ; poll f ; notify /t ; poll f ; rm /t ; poll f",
        "ok 1.1 ; ok ; changed ; v ; same ; ok ; changed ; ok ; changed",
    ),
    "moves": (
        "mkdir /a ; mkdir /b ; mkdir /a/c ; mv /a / a ; commands ; mv /a / b ; mv /a /a/c z ; mv / /a r ; "
        "mv /a/c /b d ; stat /a ; stat /b ; commands ; ls /a ; ls /b",
        "ok 1.1 ; ok 2.1 ; ok 3.1 ; ok ; 3 ; err Exists 17 ; err Invalid 22 ; err Invalid 22 ; ok ; "
        "dir subdirs=0 nlink=2 live ; dir subdirs=1 nlink=3 live ; 4 ;  ; d",
    ),
    "links": (
        "mkdir /devices ; mkdir /devices/d0 ; mkdir /bus ; mkdir /bus/devices ; "
        "link /bus/devices/d0 /devices/d0 ; readlink /bus/devices/d0 ; link /devices/e /devices/d0 ; "
        "readlink /devices/e ; rm /devices/d0 ; readlink /devices/e ; stat /devices/e ; link /r / ; commands",
        "ok 1.1 ; ok 2.1 ; ok 3.1 ; ok 4.1 ; ok 5.1 ; ../../devices/d0 ; ok 6.1 ; d0 ; ok ; err NoEntry 2 ; "
        "link live ; err Invalid 22 ; 8",
    ),
    "held slot": (
        "file /a 644 x ; open f /a r ; rm /a ; file /b 644 y ; close f ; file /b 644 y ; ls /",
        "ok 1.1 ; ok ; ok ; ok 2.1 ; ok ; err Exists 17 ; b",
    ),
    "modes": (
        "file /f 200 x ; open f /f r ; open f / r ; read f 0 1 ; open f /f w ; open f /f w ; read f 0 1 ; close f",
        "ok 1.1 ; err Access 13 ; err IsDir 21 ; err Invalid 22 ; ok ; err Busy 16 ; err Access 13 ; ok",
    ),
    "off": (
        "mkdir /p off ; file /p/x 444 t ; open f /p/x r ; stat /p ; stat /p/x ; activate /p ; open f /p/x r ; "
        "read f 3 2 ; close f",
        "ok 1.1 ; ok 2.1 ; err NoEntry 2 ; dir subdirs=0 nlink=2 off ; file mode=444 live ; ok ; ok ;  ; ok",
    ),
    "hiding": (
        "file /t 644 v ; open f /t r ; hide /t ; read f 0 1 ; ls / ; stat /t ; hide /t ; show /t ; read f 0 1 ; "
        "show /t ; hide / ; commands",
        "ok 1.1 ; ok ; ok ; err NoDevice 19 ;  ; file mode=644 hidden ; err Busy 16 ; ok ; v ; err Invalid 22 ; "
        "err IsDir 21 ; 3",
    ),
    "hidden and removed": (
        "file /t 644 v ; hide /t ; rm /t ; file /t 644 w ; show /t ; commands ; ls /",
        "ok 1.1 ; ok ; ok ; ok 2.1 ; err Invalid 22 ; 5 ; t",
    ),
    "compaction": (
        "mkdir /a ; file /a/x 644 v ; mkdir /b off ; mv /a/x / y ; hide /y ; rm /b ; commands ; compact ; "
        "commands ; show /y ; ls / ; mkdir /c ; commands",
        "ok 1.1 ; ok 2.1 ; ok 3.1 ; ok ; ok ; ok ; 7 ; ok ; 3 ; ok ; a y ; ok 3.2 ; 5",
    ),
    "texts": (
        "file /a 666 one ; open a /a rw ; write a two and more ; read a 0 99 ; write a three ; read a 0 99 ; "
        "read a 1 2 ; notify /a ; poll a ; close a ; rm /a ; file /a 666 four ; open a /a r ; read a 0 99",
        "ok 1.1 ; ok ; 12 ; two and more ; 5 ; three ; hr ; ok ; changed ; ok ; ok ; ok 1.2 ; ok ; four",
    ),
}

# Scripts of devices, which only the owner of a tree with workers has.
DEVICES = {
    "a device": (
        "plug d0 on ; unplug d0 ; unplug d0 ; ls /devices ; plug d0 on ; ls /devices/d0 ; unplug d0 ; unplug d0",
        "ok 4.1 ; ok ; err NoEntry 2 ;  ; ok 4.2 ; delete serial value ; ok ; err NoEntry 2",
    ),
    "a device that is read": (
        "plug d0 on ; readlink /bus/devices/d0 ; open f /devices/d0/value rw ; write f off ; read f 0 9 ; "
        "unplug d0 ; unplug d0 ; ls /devices",
        "ok 4.1 ; ../../devices/d0 ; ok ; 3 ; off ; ok ; err NoEntry 2 ; ",
    ),
    "a device that deletes itself": (
        "plug d0 on ; wait ; @1 open d /devices/d0/delete w ; @1 write d 1 ; wait ; unplug d0 ; unplug d0 ; "
        "ls /devices ; plug d0 on ; ls /devices/d0",
        "ok 4.1 ; ok ; ok ; 1 ; ok ; err NoEntry 2 ; err NoEntry 2 ;  ; ok 4.2 ; delete serial value",
    ),
    "a device without slots": (
        "mkdir /s ; mkdir /s/a ; mkdir /s/b ; plug d0 on ; unplug d0 ; unplug d0 ; ls /devices ; mkdir /x",
        "ok 1.1 ; ok 2.1 ; ok 3.1 ; err NoSpace 28 ; err NoEntry 2 ; err NoEntry 2 ;  ; ok 7.2",
    ),
}

# Rounds of lines of the owner and workers, whose replies are the same in every order and by any runner.
THREADS = {
    "a worker": (
        "file /t 644 v ; wait ; @1 open f /t r ; @1 read f 0 9 ; ls / ; wait ; @1 close f",
        "ok 1.1 ; ok ; ok ; v ; t ; ok ; ok",
    ),
    "three workers": (
        "file /a 666 a ; file /b 666 b ; file /c 666 c ; wait ; @1 open f /a rw ; @2 open f /b rw ; "
        "@3 open f /c rw ; @2 write f bb ; @1 write f aa ; @3 write f cc ; wait ; @3 read f 0 9 ; ls / ; "
        "@1 read f 0 9 ; @2 read f 0 9 ; wait ; @1 rm /a ; @2 close f ; wait ; ls /",
        "ok 1.1 ; ok 2.1 ; ok 3.1 ; ok ; ok ; ok ; ok ; 2 ; 2 ; 2 ; ok ; cc ; a b c ; aa ; bb ; ok ; ok ; ok ; "
        "ok ; b c",
    ),
    "devices": (
        "plug d0 on ; plug d1 off ; wait ; @1 open d /devices/d0/delete w ; @2 open d /devices/d1/delete w ; wait ; "
        "@1 write d 1 ; @2 write d 1 ; @3 stat /bus ; wait ; ls /devices ; ls /bus/devices",
        "ok 4.1 ; ok 9.1 ; ok ; ok ; ok ; ok ; 1 ; 1 ; dir subdirs=1 nlink=3 live ; ok ;  ; ",
    ),
}


def script_of(text):
    return "".join(line + "\n" for line in text.split(" ; ")).encode()


def scripts():
    for name, (text, _) in BY_BOTH.items():
        for options in (ONE_CALLER, ONE_WORKER):
            yield name, script_of(text), options


def of_devices():
    for name, (text, _) in DEVICES.items():
        slots = ("--slots", "8") if "slots" in name else ()
        yield name, script_of(text), (*slots, *ONE_WORKER)


def of_threads():
    for name, (text, _) in THREADS.items():
        yield name, script_of(text), ("--workers", "3")


def of_growth():
    """Tables, a directory and a list of commands that grow many times, with names in any order, and become smaller."""
    names = [f"{at * 467 % 1200:04d}" for at in range(1200)]
    made = "".join(f"mkdir /{it}\n" for it in names) + "ls /\n"
    gone = "".join(f"rm /{it}\n" for it in names[::4]) + "compact\n" + "".join(f"file /{it} 644\n" for it in names[::8])
    for options in (ONE_CALLER, ONE_WORKER):
        yield "a tree that grows", (made + gone + "ls /\ncommands\n").encode(), ("--slots", "1300", *options)


def come_and_go(width):
    """As many directories as there are slots come and go, with names of this many bytes."""
    names = [str(at).rjust(width, "n") for at in range(SLOTS - 1)]
    return "".join(f"mkdir /{it}\n" for it in names) + "".join(f"rm /{it}\n" for it in names)


# Everything that one caller can do, with long names and texts, and an empty tree at the end.
ROUND = script_of(
    "mkdir /{n} off ; file /{n}/f 644 {t} ; link /l /{n}/f ; mkdir /{n}/{m} off ; activate /{n} ; ls /{n} ; stat /l ; "
    "readlink /l ; open a /{n}/f rw ; read a 0 99 ; write a {t} ; read a 0 99 ; poll a ; notify /{n}/f ; mv /{n}/f / {m} ; "
    "hide /{m} ; read a 0 99 ; show /{m} ; hide /{m} ; close a ; ls / ; rm /l ; rm /{n} ; show /{m} ; rm /{m} ; rm /{m} ; "
    "plug d x ; wait ; frob ; commands ; compact".format(n="n" * 255, m="m" * 200, t="t" * 3000)
)


def of_memory():
    """Pairs of scripts, and how many more bytes the first one may use at its end than the second one."""
    moved = "mkdir /a\n" + "mv /a / b\nmv /b / a\n" * 20_000
    made = "".join(f"mkdir /{at}\n" for at in range(2100))
    there = "file /t 644 v\n" + f"file /t 644 {'t' * 3000}\n" * 500
    for name, script, other, more in (
        # (each holder of a node keeps 12 bytes, in a list with a capacity of 4,096 then)
        ("all that one caller can do, 500 times", ROUND.decode() * 500, ROUND.decode(), 4096 * 12 + 4096),
        ("40,001 commands, compacted to one", moved + "compact\n", "mkdir /a\ncompact\n", 4096),
        ("names of 255 bytes, removed and compacted", come_and_go(255) + "compact\n", come_and_go(4) + "compact\n", 4096),
        ("a file that is there already, 500 times", there, "file /t 644 v\n", 4096),
        # a growing list has a capacity of 4,096 commands then, and each has at least 50 bytes
        ("2,100 commands, compacted", made + "compact\n", made, (2100 - 4096) * 50),
    ):
        yield name, (script.encode(), other.encode(), more), ("--slots", str(SLOTS))


def replies_of(name):
    """The replies of a script, as they were worked out by hand."""
    return script_of({**BY_BOTH, **DEVICES, **THREADS}[name][1])


def long_script():
    return b"\n".join(script_of(text) for text, _ in BY_BOTH.values())


def device_mistake(lines, replies):
    """The first reply that no plug or unplug explains, whether it ended or was refused at any point."""
    # whether d0 exists: True, False, or None if a refused call may have left it
    there, refused = False, (b"err NoMemory 12", b"err Callback 12")
    for line, reply in zip(lines, replies):
        if reply in refused:
            there = None if line.startswith((b"plug", b"unplug", b"@1 write")) else there
        elif line.startswith(b"plug"):
            if reply == b"err Exists 17" and there is None:
                continue
            if reply == b"err NoSpace 28" and not there:
                # what it created is removed again, unless memory for that was refused
                there = None
                continue
            if not reply.startswith(b"ok ") or there:
                return line
            there = True
        elif line.startswith(b"unplug"):
            if reply not in (b"ok", b"err NoEntry 2") or there is not None and there != (reply == b"ok"):
                return line
            there = False
        elif line == b"@1 write d 1" and reply == b"1":
            there = False
        elif line == b"ls /devices":
            if there is not None and reply not in ((b"d0",) if there else (b"", b"err NoEntry 2")):
                return line
        elif line == b"ls /devices/d0":
            if there is not None and reply != (b"delete serial value" if there else b"err NoEntry 2"):
                return line
    return None
