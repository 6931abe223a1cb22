# SPDX-License-Identifier: MIT OR Apache-2.0
"""Tests of the launcher: statuses, what a command sees, signals and leftovers, timelines, privileges."""
import os, signal, subprocess, sys, time

from programs import CHIP, NOBODY, PATIENCE, SYSFS, eventually, leftovers, mounts, must, processes, running

CHANGES = """
import errno, sys, time
start, last = time.monotonic(), None
while last != "gone":
    try:
        text = open(sys.argv[1]).read().strip()
    except OSError as error:
        text = "fails" if error.errno == errno.EIO else "gone"
    if text != last:
        print(time.monotonic() - start, text)
    last = text
    time.sleep(0.01)
"""


def statuses(tools):
    """The command's status is passed on, and differs from those of the launcher"""
    wrong = tools.file("wrong.kf", "mkdir /class\nfrob\n")
    for words, status in (
        ([tools.chip, "true"], 0),
        ([tools.chip, "sh", "-c", "exit 7"], 7),
        ([tools.chip, "sh", "-c", "kill -9 $$"], 137),
        ([tools.chip, "sh", "-c", "kill -TERM $$"], 143),
        ([tools.chip, "no-such-command"], 127),
        ([tools.chip, tools.chip], 126),
        ([], 2),
        ([tools.chip], 2),
        (["-q", tools.chip, "true"], 2),
        (["nothing.kf", "true"], 2),
        ([wrong, "true"], 2),
        (["-t", "nothing.tl", tools.chip, "true"], 2),
        (["-t", "-", "-", "true"], 2),
        (["--slots", "0", tools.chip, "true"], 2),
        (["storm", "--slots", "0", "--time", "1", tools.chip, "--", "true"], 2),
        (["tell", "notify /x"], 2),
        (["storm", tools.chip], 2),
    ):
        ran = tools.run(*words)
        must(ran.returncode == status, f"{words}: {ran.returncode}, not {status}: {ran.stderr[-300:]}")
        must(status in (0, 7, 137, 143) or ran.stderr, f"{words}: no message")
    must("line 2" in tools.run(wrong, "true").stderr, "the wrong line is reported with its number")
    for text in ("1 notify /x\nx notify /x\n", "2 notify /x\n1 notify /x\n", "1\n"):
        line = text.count("\n")
        ran = tools.run("-t", tools.file("wrong.tl", text), tools.chip, "true")
        must(ran.returncode == 2 and f"line {line}" in ran.stderr, f"timeline {text!r}: {ran}")


def seen(tools):
    """A command sees the tree in place of the directories of /sys, and no other process does"""
    before = mounts(), sorted(os.listdir("/sys/class"))
    said = tools.said(
        tools.chip,
        "sh",
        "-c",
        f"cat /sys{CHIP}/temp1_input /sys/class/hwmon/hwmon0/name; ls /sys/class; stat -fc %t /sys",
    )
    must(said.split() == ["42000", "coretemp", "hwmon", f"{SYSFS:x}"], said)
    said = tools.said(
        "-a",
        tools.chip,
        "sh",
        "-c",
        "ls /sys; cat $FAKESYS 2> /dev/null; echo notify /x > $FAKESYS || echo refused",
    )
    must(said.split() == ["bus", "class", "devices", "refused"], said)
    must(
        (mounts(), sorted(os.listdir("/sys/class"))) == before,
        "the machine's own /sys changed",
    )


def described(tools):
    """A description on standard input, one with a name of any bytes, five runs at once, and one run inside another"""
    text = tools.chip.read_text()
    must(
        tools.run("-", "cat", f"/sys{CHIP}/name", input=text).stdout == "coretemp\n",
        "a description on standard input",
    )
    strict, described = {**os.environ, "PYTHONIOENCODING": "utf-8:strict"}, b"mkdir /class\nmkdir /class/\xff\xa0\n"
    ran = tools.run("-", "ls", "/sys/class", input=described, text=False, env=strict)
    must(ran.stdout == b"\xff\xa0\n", f"a name of any bytes on standard input: {ran}")
    many = [
        subprocess.Popen(
            tools.command(tools.chip, "sh", "-c", f"sleep 0.3; cat /sys{CHIP}/name"), stdout=subprocess.PIPE
        )
        for _ in range(5)
    ]
    must({it.communicate(timeout=PATIENCE)[0] for it in many} == {b"coretemp\n"}, "five at once")
    inner = tools.command(tools.chip, "sh", "-c", f"echo 'unplug {CHIP}' > $FAKESYS; ls /sys/class/hwmon | wc -l")
    said = tools.said(
        tools.chip, "sh", "-c", f"'{inner[0]}' {inner[1]} sh -c \"{inner[4]}\"; ls /sys/class/hwmon | wc -l"
    )
    must(said.split() == ["0", "1"], f"one inside another: {said}")


def killed(tools):
    """Ended at any time, or killed, it leaves no process, mount or directory; background processes end too"""
    for number, status in (
        (signal.SIGTERM, 143),
        (signal.SIGHUP, 129),
        (signal.SIGINT, 130),
        (signal.SIGKILL, -9),
    ):
        mark = f"9{os.getpid()}{int(number):02d}"
        ready = tools.folder / f"ready-{mark}"
        words = tools.command(tools.chip, "sh", "-c", f"sleep {mark} & touch {ready}; exec sleep {mark}")
        with running(words) as run:
            must(eventually(ready.exists) and eventually(lambda: processes(mark) == 2), "it runs")
            run.send_signal(number)
            must(run.wait(PATIENCE) == status, f"{number}: status {run.returncode}")
            must(eventually(lambda: not processes(mark)), f"{number}: a process is left behind")
    mark = f"9{os.getpid()}60"
    for at in range(20):
        with running(tools.command(tools.chip, "sleep", mark)) as early:
            time.sleep(at / 50)
            early.terminate()
            must(early.wait(PATIENCE) in (143, -15), f"after {at / 50} s: status {early.returncode}")
    must(eventually(lambda: not processes(mark)), "a process is left behind that was ended as it began")
    said = tools.said(tools.chip, "sh", "-c", "sleep 981 > /dev/null 2>&1 & trap '' TERM; echo done")
    must(said == "done\n" and eventually(lambda: not processes("981")), "a process in the background")
    with running(tools.command(tools.chip, "sh", "-c", "trap '' TERM; sleep 982; sleep 982")) as deaf:
        must(eventually(lambda: processes("982") == 1), "it runs")
        deaf.terminate()
        must(deaf.wait(PATIENCE) == 137, f"a command that ignores SIGTERM is killed: {deaf.returncode}")
    for _ in range(15):  # timeout(1) signals the command and the run at once, and kills what does not end
        words = ["timeout", "--preserve-status", "-k", "20", "0.3", *tools.command(tools.chip, "sleep", mark)]
        ran = subprocess.run(words, stderr=subprocess.PIPE, check=False)
        must(ran.returncode == 143 and not ran.stderr, f"signalled at once: {ran}")
    reloads(tools)
    hangs_up(tools)
    ignore = lambda: signal.signal(signal.SIGCHLD, signal.SIG_IGN)
    with running(tools.command(tools.chip, "sh", "-c", "exit 7"), preexec_fn=ignore) as run:
        must(run.wait(PATIENCE) == 7, f"with SIGCHLD ignored: {run.returncode}")
    must(not leftovers(), leftovers())


def reloads(tools):
    """A daemon that reloads by SIGHUP goes on."""
    ready, hup, over = (tools.folder / name for name in ("ready", "hup", "over"))
    script = f"trap 'touch {hup}' HUP; touch {ready}; until [ -e {over} ]; do sleep 0.1; done; exit 3"
    with running(tools.command(tools.chip, "sh", "-c", script)) as run:
        must(eventually(ready.exists), "it runs")
        run.send_signal(signal.SIGHUP)
        must(eventually(hup.exists), "it gets the signal")
        time.sleep(3.5)
        must(run.poll() is None, f"a daemon that reloads was killed: {run.returncode}")
        over.touch()
        must(run.wait(PATIENCE) == 3, run.returncode)


def hangs_up(tools):
    """A signal that is ignored from the start, as by nohup(1), ends neither a run nor a storm."""
    for number, words in enumerate(([tools.chip], ["storm", "--time", "60", tools.chip, "--"])):
        mark = f"9{os.getpid()}8{number}"
        words = tools.command(*words, "sh", "-c", f"exec sleep {mark}")
        with running(["sh", "-c", "trap '' HUP; exec \"$@\"", "sh", *words]) as run:
            must(eventually(lambda: processes(mark) == 1), "it runs")
            run.send_signal(signal.SIGHUP)
            must(not eventually(lambda: not processes(mark), 4), f"{words[1]}: ended by an ignored signal")
            run.terminate()
            must(run.wait(PATIENCE) == 143, f"{words[1]}: status {run.returncode}")


def timeline(tools):
    """A timeline's lines come at their times; one that is refused is reported, and one that comes too late is not"""
    lines = f"""# text
  3 set {CHIP}/temp1_input 91000

+1 fail {CHIP}/temp1_input 5
4.2 notify /nothing
5 unplug {CHIP}
"""
    ran = tools.run(
        "-t", tools.file("good.tl", lines), tools.chip, sys.executable, "-c", CHANGES, f"/sys{CHIP}/temp1_input"
    )
    times, texts = zip(*(line.split() for line in ran.stdout.split("\n")[:-1]))
    must(texts == ("42000", "91000", "fails", "gone"), ran.stdout)
    must(float(times[3]) - float(times[0]) > 2, ran.stdout)
    must("good.tl: No such file or directory: notify /nothing" in ran.stderr, ran.stderr)
    dense = "".join(f"{at / 500} set {CHIP}/temp1_input {at}\n" for at in range(1000))
    ran = tools.run("-t", tools.file("dense.tl", dense), tools.chip, "sleep", "0.5")
    must(ran.returncode == 0 and not ran.stderr, f"a timeline that goes on after the command has ended: {ran}")


def own_dev(tools):
    """With -n no node of /dev can be changed, and the run has its own network, /dev and /run/udev"""
    before = {name: os.stat(f"/dev/{name}")[:6] for name in os.listdir("/dev") if not os.path.islink(f"/dev/{name}")}
    script = "chmod 600 /dev/null && echo changed; echo x > /dev/null && head -c 2 /dev/zero | wc -c; mknod /dev/x c 1 3; ls /dev /run/udev; ls /sys/class"
    said = tools.run("-n", tools.chip, "sh", "-c", script).stdout.split()
    must(
        "changed" not in said and said[0] == "2" and "rules.d" in said and "null" in said and "vda" not in said,
        said,
    )
    after = {name: os.stat(f"/dev/{name}")[:6] for name in before}
    must(before == after, "a node of the machine changed")


def inside_own_dev(tools):
    """A run works inside another one that has its own /dev"""
    script = f'"$0" "$1" sh -c "cat /sys{CHIP}/name; exit 4"; echo $?'
    ran = tools.run("-n", tools.chip, "sh", "-c", script, tools.bin / "fakesys", tools.chip)
    must(ran.stdout == "coretemp\n4\n", ran)


def new_tops(tools):
    """Top directories that the machine lacks appear in /sys beside the machine's; if nothing can be covered, that is said"""
    known = sorted(os.listdir("/sys"))
    lines = tools.file("tops.kf", "mkdir /frobs\nfile /frobs/a 644 1\nmkdir /class\nfile /class/b 644 2\nfile /c 644 3\n")
    script = "ls /sys; cat /sys/frobs/a /sys/class/b; touch /sys/new 2> /dev/null || echo no; echo 'set /frobs/a 5' > $FAKESYS; cat /sys/frobs/a; ls /sys/kernel | wc -l"
    ran = tools.run(lines, "sh", "-c", script)
    wanted = [*sorted([*known, "frobs"]), "1", "2", "no", "5", str(len(os.listdir("/sys/kernel")))]
    must(ran.stdout.split() == wanted and "c is no directory" in ran.stderr, ran)
    for words in ["-n"], ["-a"]:
        must(tools.said(*words, lines, "cat", "/sys/frobs/a") == "1\n", f"with {words}")
    must(sorted(os.listdir("/sys")) == known, "the machine's own /sys changed")
    ran = tools.run(tools.file("no-tops.kf", "file /a 644 1\n"), "echo", "ran")
    must((ran.returncode, ran.stdout) == (125, "") and "-a covers" in ran.stderr, f"nothing to cover: {ran}")
    ran = tools.run("-", "echo", "ran", input="")
    must((ran.returncode, ran.stdout) == (125, "") and "-a covers" in ran.stderr, f"an empty description: {ran}")


KILL_THE_DAEMON = """for it in /proc/[0-9]*; do
    [ "$(cat $it/comm 2> /dev/null)" != fakesysfs ] || kill -9 ${it#/proc/}
done"""


def lost(tools):
    """If the daemon is killed, this is reported, the command ends, and the status is 125"""
    mark = f"9{os.getpid()}61"
    begun = time.monotonic()
    for words in ([], ["storm", "--calm", "20", "--time", "20"], ["-n"]):
        ran = tools.run(*words, tools.chip, *["--"] * ("storm" in words), "sh", "-c", f"{KILL_THE_DAEMON}\nsleep {mark}")
        said = ran.stdout + ran.stderr
        must(ran.returncode == 125 and "fakesysfs itself was killed by SIGKILL" in said, f"{words}: {ran}")
    must(time.monotonic() - begun < PATIENCE and eventually(lambda: not processes(mark)), "the command ends")
    ran = tools.run(tools.chip, "sh", "-c", f"trap 'exit 0' TERM; {KILL_THE_DAEMON}; sleep 30 & wait")
    must(ran.returncode == 125 and "fakesysfs itself" in ran.stderr, f"a command that exits with status 0 then: {ran}")


def escaped(tools):
    """No control byte of a name, of a line or of an output reaches the terminal by a message"""
    odd = "/class/\\033]0;x"  # (\033 is an escape of the description: the name has the byte)
    lines = tools.file("odd.kf", f"mkdir /class\nmkdir {odd}\nfile {odd}/b 644 1\n")
    crash = "printf '\\033[2Jx'; kill -SEGV $$"
    for words in (
        ["-t", tools.file("odd.tl", "0 frob \x1b[2J\n"), lines, "sleep", "0.5"],
        ["storm", "--time", "2", "--calm", "0", "--device", odd, lines, "--", "sh", "-c", crash],
        ["storm", "--device", "/class/\x1b[2J", lines, "--", "true"],
        ["-t", "no\x1b[2J.tl", lines, "true"],
        [tools.file("wrong.kf", "frob \x1b[2J\n"), "true"],
    ):
        ran = tools.run(*words)
        said = ran.stdout + ran.stderr
        must(said and "\x1b" not in said, f"{words}: {said!r}")


def unprivileged(tools):
    """A user without privilege can run it"""
    if os.geteuid():
        return "as the current user"
    share = 'mkdir {0}; mknod {0}/fuse c 10 229; chmod 666 {0}/fuse; mount --bind {0}/fuse /dev/fuse; exec "$@"'
    place = tools.folder / "node"
    drop = ["setpriv", f"--reuid={NOBODY}", f"--regid={NOBODY}", "--clear-groups", "--"]
    words = tools.command(
        "-n", tools.chip, "sh", "-c", f"id -u; cat /sys{CHIP}/name; fakesys-uevent add {CHIP} hwmon; exit 9"
    )
    os.chmod(tools.folder, 0o755)
    env = {**os.environ, "PATH": f"{tools.bin}:/usr/bin:/bin:/usr/sbin:/sbin"}
    ran = subprocess.run(
        ["unshare", "-m", "sh", "-c", share.format(place), "sh", *drop, *words],
        cwd="/",
        env=env,
        capture_output=True,
        text=True,
        timeout=PATIENCE,
        check=False,
    )
    if ran.returncode == 125 or "Permission denied" in ran.stderr:
        return f"skipped: {ran.stderr.strip()[-100:]}"
    must((ran.returncode, ran.stdout) == (9, "0\ncoretemp\n"), f"{ran}")
    return "root and nobody"


TRIED = (
    statuses,
    seen,
    described,
    killed,
    timeline,
    own_dev,
    inside_own_dev,
    new_tops,
    lost,
    escaped,
    unprivileged,
)
