# SPDX-License-Identifier: MIT OR Apache-2.0
"""Tests of `fakesys explore` and `fakesys shrink`, which test_tools runs."""
import json, os, re, signal, subprocess, sys, xml.etree.ElementTree

from mounted import must
from programs import eventually, leftovers, processes

CHIP = "/devices/platform/coretemp.0/hwmon/hwmon0"
# A reader that lists the chips and then trusts that they stay.
TRUSTING = "for chip in $(ls /sys/class/hwmon); do read name < /sys/class/hwmon/$chip/name || kill -SEGV $$; done"
ONCE = """
import os
for name in os.listdir("/sys/class/hwmon"):
    open(f"/sys/class/hwmon/{name}/name").read()
"""
# Two chips, and a reader that fails in the same way if there is none, and if one goes while it looks at it.
TWO = ["/class", "/class/chip", "/devices", "/devices/a", "/devices/b"]
TWO = [f"mkdir {it}\n" for it in TWO] + [f"file /devices/{it}/name 444 x\nlink /class/chip/{it} /devices/{it}\n" for it in "ab"]
STRICT = """names=$(ls /sys/class/chip); [ "$names" ] || exit 7
for name in $names; do [ -e /sys/class/chip/$name/name ] || exit 7; done"""
SHORT = ["--actions", "unplug,EIO"]
PATIENCE = 400  # seconds for an exploration, on a busy machine


def explore(tools, *words, script):
    return tools.run("explore", *words, tools.chip, "--", "sh", "-c", script, timeout=PATIENCE)


def found_in(ran):
    """The finds that were printed: how the program ended, and the line that repeats it."""
    return re.findall(r"^FOUND: (.*)\n {4}(at .*)$", ran.stdout, re.M)


def last_line(ran):
    return ran.stdout.rstrip().split("\n")[-1]


def explored(tools):
    """An exploration finds a reader that trusts a listing, the same in a second run and side by side; its line repeats it"""
    first = explore(tools, *SHORT, script=TRUSTING)
    finds = found_in(first)
    must(first.returncode == 1 and finds, first)
    must(all(what == "killed by SIGSEGV" for what, _ in finds), finds)
    points, runs, count = map(int, re.fullmatch(r"(\d+) points, (\d+) runs, (\d+) finds", last_line(first)).groups())
    must(points == runs > 10 and count == len(finds), first.stdout)
    must("repeated 3 of 3 times" in first.stdout and "repeated 0" not in first.stdout, first.stdout)
    for again in explore(tools, *SHORT, script=TRUSTING), explore(tools, *SHORT, "-j", "2", script=TRUSTING):
        must((again.returncode, again.stdout) == (1, first.stdout), f"it differs: {again} {first}")
    for _, line in finds:
        ran = tools.run(tools.chip, "sh", "-c", f'echo "$1" > $FAKESYS; {TRUSTING}', "sh", line)
        must(ran.returncode == 128 + signal.SIGSEGV, f"{line}: {ran}")
    tried = explore(tools, "--at", finds[0][1], "--times", "4", script=TRUSTING)
    must((tried.returncode, tried.stdout) == (1, "4 of 4: killed by SIGSEGV\n"), tried)
    hides = explore(tools, "--at", f"at read {CHIP}/name 1 hide {CHIP}/name", "--times", "2", script=TRUSTING)
    must(hides.stdout == "2 of 2: killed by SIGSEGV\n", f"the tree is whole after each run: {hides}")
    other = explore(tools, "--at", f"at read {CHIP}/temp1_input 1 unplug {CHIP}", "--times", "2", script=TRUSTING)
    must(other.returncode == 0 and other.stdout == "2 of 2: no fault, but the step was not made\n", other)
    return f"{points} points, {count} finds"


def at_once(tools):
    """A find is printed while the exploration goes on"""
    go, runs = tools.folder / "go", tools.folder / "runs"
    waits = f"echo >> {runs}; [ $(wc -l < {runs}) -lt 40 ] || until [ -e {go} ]; do sleep 0.02; done; {TRUSTING}"
    words = ["explore", "--actions", "unplug,EIO", "--hang", PATIENCE, tools.chip, "--", "sh", "-c", waits]
    with subprocess.Popen(tools.command(*words), stdout=subprocess.PIPE, text=True) as explores:
        try:
            first = explores.stdout.readline()  # (the program waits in its run 40 until this line has come)
            must(first == "FOUND: killed by SIGSEGV\n" and not go.exists(), first)
        finally:
            go.touch()
        rest = explores.stdout.read()
    must(explores.returncode == 1 and len(runs.read_text()) > 40 and "points" in rest, rest)
    must(re.search(r"^\d+ points end like this one: at ", rest, re.M), rest)
    interrupted(tools)
    words = tools.command("explore", *SHORT, tools.chip, "--", "sh", "-c", TRUSTING)
    ran = subprocess.run(["sh", "-c", '"$@" | head -1', "sh", *words], capture_output=True, text=True, timeout=PATIENCE, check=False)
    must((ran.stdout, ran.stderr) == ("FOUND: killed by SIGSEGV\n", ""), f"nobody reads on: {ran}")


def interrupted(tools):
    """Ctrl-C ends the search, which reports what it has found."""
    words = tools.command("explore", *SHORT, tools.chip, "--", "sh", "-c", f"sleep 0.2; {TRUSTING}")
    with subprocess.Popen(words, stdout=subprocess.PIPE, text=True, start_new_session=True) as explores:
        first = explores.stdout.readline()
        os.killpg(explores.pid, signal.SIGINT)
        rest = explores.stdout.read()
    points, runs = map(int, re.search(r"^(\d+) points, (\d+) runs, \d+ finds$", rest, re.M).groups())
    must(explores.returncode == 1 and first == "FOUND: killed by SIGSEGV\n" and runs < points, rest)


def reported(tools):
    """Its reports are JSON and JUnit's XML; a known find is reported and does not count; a budget is kept"""
    files = {kind: tools.folder / f"report.{kind}" for kind in ("json", "junit", "known")}
    words = ["--actions", "unplug", "--json", files["json"], "--junit", files["junit"]]
    files["json"].write_text("x" * 100000)
    ran = explore(tools, *words, script=TRUSTING)
    report = json.loads(files["json"].read_text())
    must([(it["what"], it["line"]) for it in report["finds"]] == found_in(ran) != [], report)
    must(f"{report['points']} points, {report['runs']} runs, {len(report['finds'])} finds" == last_line(ran), report)
    suite = xml.etree.ElementTree.parse(files["junit"]).getroot()
    must(int(suite.get("tests")) == report["runs"] == len(suite.findall("testcase")), "a test case for each run")
    failed = [case.get("name") for case in suite.iter("testcase") if case.find("failure") is not None]
    must(len(failed) == int(suite.get("failures")) == sum(it["points"] for it in report["finds"]), failed)
    must(report["finds"][0]["line"] in failed, failed)
    files["known"].write_text("notes\n" + "".join(f"  {it['line']}\n" for it in report["finds"]))
    known = explore(tools, *words, "--known", files["known"], script=TRUSTING)
    must(known.returncode == 0 and "KNOWN: killed by SIGSEGV" in known.stdout and " 0 finds" in last_line(known), known)
    few = explore(tools, "--runs", "7", script=TRUSTING)
    must(re.search(r"\d+ points, 7 runs", last_line(few)) and "points were not tried" in few.stdout, few)
    none = explore(tools, "--seconds", "0.01", script=TRUSTING)
    must(none.returncode == 0 and " 0 runs, 0 finds" in last_line(none), none)


def judged(tools):
    """A status of a calm run is no find, nor is a wait that ends once the device is back; any other status and a hang are"""
    sound = f"cat /sys{CHIP}/name 2> /dev/null || exit 3"
    ran = explore(tools, script=sound)
    must(ran.returncode == 0 and " 0 finds" in last_line(ran), f"a deliberate status: {ran}")
    must(int(last_line(ran).split()[0]) > 20, f"points: {ran}")
    ran = explore(tools, "--at", f"at lookup {CHIP} 1 unplug {CHIP}", "--times", "2", script=sound)
    must((ran.returncode, ran.stdout) == (0, "2 of 2: no fault\n"), f"one line is judged as a search judges: {ran}")
    ran = tools.run("explore", tools.file("two.kf", "".join(TWO)), "--", "sh", "-c", STRICT, timeout=PATIENCE)
    must(ran.returncode == 0 and " 0 finds" in last_line(ran), f"a status that it has if all devices are absent: {ran}")
    strange = "for chip in $(ls /sys/class/hwmon); do [ -e /sys/class/hwmon/$chip/name ] || exit 4; done"
    ran = explore(tools, "--actions", "unplug", script=strange)
    must(ran.returncode == 1 and found_in(ran)[0][0] == "status 4", f"a status that no calm run had: {ran}")
    ran = explore(tools, "--at", found_in(ran)[0][1], "--times", "2", script=strange)
    must((ran.returncode, ran.stdout) == (1, "2 of 2: status 4\n"), f"the same by its line: {ran}")
    ran = explore(tools, "--actions", "unplug", "--ok", "0,4", script=strange)
    must(ran.returncode == 0, f"an accepted status: {ran}")
    waits = f"until read name < /sys{CHIP}/name; do :; done 2> /dev/null"
    ran = explore(tools, "--actions", "unplug", "--hang", "0.5", "--runs", "4", script=waits)
    must(ran.returncode == 0 and " 4 runs" in last_line(ran), f"it waits for its device: {ran}")
    hangs = f"read name < /sys{CHIP}/name || sleep 986"
    ran = explore(tools, "--actions", "unplug", "--hang", "0.5", "--runs", "3", script=hangs)
    must(ran.returncode == 1 and found_in(ran)[0][0] == "hangs", f"it hangs: {ran}")
    slow = f"sleep 0.3; [ -e /sys{CHIP}/name ] || sleep 2"
    ran = explore(tools, "--actions", "unplug", "--hang", "1", script=slow)
    must(ran.returncode == 0 and " 2 runs" in last_line(ran), f"it is slow, also in calm runs: {ran}")
    reader = tools.file("once.py", ONCE)
    ran = tools.run("explore", "--actions", "unplug", "--runs", "8", tools.chip, "--", sys.executable, reader, timeout=PATIENCE)
    must(ran.returncode == 1 and found_in(ran)[0][0].startswith("traceback: FileNotFoundError"), f"a traceback: {ran}")
    shown = re.search(r"\n      \|   File \".*once\.py\", line 4.*\n      \|     open\(.*\n      \| FileNotFoundError: ", ran.stdout)
    must(shown, f"the innermost call and the exception: {ran}")
    ran = explore(tools, "--actions", "unplug", "--device", "/class/hwmon/hwmon0", script=TRUSTING)
    must(ran.returncode == 1 and all(line.endswith(f" unplug {CHIP}") for _, line in found_in(ran)), f"a device by a link: {ran}")
    both = "for it in a b; do read name < /sys/devices/$it/name || kill -SEGV $$; done"
    two = tools.file("two.kf", "".join(TWO))
    ran = tools.run("explore", "--actions", "EIO", "--device", "/devices/b", two, "--", "sh", "-c", both, timeout=PATIENCE)
    must([line.split()[2] for _, line in found_in(ran)] == ["/devices/b/name"], f"files of a device only: {ran}")
    stored = f"read t < /sys{CHIP}/temp1_max || exit 0; [ $t = 80000 ] || kill -SEGV $$; echo 1 > /sys{CHIP}/temp1_max || :"
    ran = explore(tools, "--actions", "unplug", "--runs", "6", script=stored)
    must(ran.returncode == 0, f"what a run writes is undone after it: {ran}")


def piped(tools):
    """An exploration reads its description once, so that it may come from a pipe"""
    words = ["--at", f"at read {CHIP}/name 1 unplug {CHIP}", "--times", "1", "-", "--", "sh", "-c", TRUSTING]
    ran = tools.run("explore", *words, input=tools.chip.read_text())
    must((ran.returncode, ran.stdout) == (1, "1 of 1: killed by SIGSEGV\n"), ran)


def chips(tools, count):
    """A description with a number of chips: c10, c11 .."""
    names = [f"c{number}" for number in range(10, 10 + count)]
    lines = [f"mkdir {it}\n" for it in ("/class", "/class/chip", "/devices", *(f"/devices/{name}" for name in names))]
    return tools.file("chips.kf", "".join([*lines, *(f"link /class/chip/{name} /devices/{name}\n" for name in names)]))


def told_apart(tools):
    """A known status hides no other one; each point has its own calm run, however many points there are"""
    known = tools.file("known", "")
    words = ["explore", "--actions", "unplug", "--known", known, chips(tools, 2), "--", "sh", "-c"]
    trusts = "for it in $(ls /sys/class/chip); do [ -e /sys/class/chip/$it ] || exit ${it#c}; done"
    ran = tools.run(*words, trusts, timeout=PATIENCE)
    must(ran.returncode == 1 and sorted(what for what, _ in found_in(ran)) == ["status 10", "status 11"], ran)
    known.write_text(f"{found_in(ran)[0][1]}\n")
    ran = tools.run(*words, trusts, timeout=PATIENCE)
    must(ran.returncode == 1 and "KNOWN: " in ran.stdout and len(found_in(ran)) == 1, f"one is known: {ran}")
    words = ["explore", "--actions", "unplug", "--runs", "0", chips(tools, 70), "--", "sh", "-c"]
    looks = "n=10; while [ $n -lt 80 ]; do [ -e /sys/devices/c$n ] || exit $n; n=$((n + 1)); done"
    ran = tools.run(*words, looks, timeout=PATIENCE)
    must(ran.returncode == 0 and int(last_line(ran).split()[0]) >= 70, f"70 deliberate statuses: {ran}")


def daemons_start(tools):
    """A calm run waits until a daemon is ready, and no other run has its daemon; one that does not start again is reported"""
    pid, log = "/dev/shm/daemon.pid", tools.folder / "log"
    asks = f"kill -0 $(cat {pid}) || exit 1; echo query $(cat {pid}) >> {log}; %s || {{ kill -USR1 $(cat {pid}); exit 1; }}"
    serves = f"%s && there=1; sleep 0.2; trap '[ $there ] && exit 3' USR1; echo start$there $$ >> {log}; echo $$ > {pid}; %s"
    serves %= "%s", "while :; do sleep 0.02; done"
    is_there = f"[ -e /sys{CHIP} ]"
    words = ["-n", "--actions", "unplug", "--runs", "3", "--device", CHIP, "--poke"]
    ran = explore(tools, *words, asks % is_there, script="there=1; " + serves % is_there)
    must(ran.returncode == 0, f"a status that it has if the device is absent: {ran}")
    log.unlink()
    are_there = " && ".join(f"[ -e /sys/devices/c{number} ]" for number in range(10, 15))
    daemon = ["--poke", asks % f"{{ {are_there}; }}", chips(tools, 5), "--", "sh", "-c", serves % are_there]
    ran = tools.run("explore", *words[:3], *daemon, timeout=PATIENCE)
    lines = log.read_text().split("\n")
    asked = [lines.count(f"query {it[6:]}") for it in lines if it.startswith("start ")]
    must(ran.returncode == 1 and asked and max(asked) == 1, f"a daemon that began without a device: {ran} {asked}")
    once = f"[ -e /dev/shm/lock ] && exit 9; touch /dev/shm/lock; echo $$ > {pid}; exec sleep 989"
    poke = f"kill -0 $(cat {pid}) || exit 1; read name < /sys{CHIP}/name || {{ kill -ABRT $(cat {pid}); exit 1; }}"
    ran = explore(tools, *words, poke, script=once)
    must(ran.returncode == 1 and found_in(ran)[0][0] == "killed by SIGABRT" and "repeated 0 of 3" in ran.stdout, f"it starts once: {ran}")
    must(re.search(r"^2 points could not be tried: the daemon ends before a query: status 9$", ran.stdout, re.M), ran.stdout)
    ends = f"[ -e /dev/shm/lock ] && exit 9; touch /dev/shm/lock; trap 'exit 0' USR1; echo $$ > {pid}; while :; do sleep 0.02; done"
    asks = f"kill -0 $(cat {pid}) || exit 1; echo >> /dev/shm/asked; [ $(wc -l < /dev/shm/asked) = 1 ] || kill -USR1 $(cat {pid}); :"
    ran = explore(tools, *words, asks, script=ends)
    must(ran.returncode == 2 and "the daemon ends before a query: status 9" in ran.stderr, f"it ends in a calm run: {ran}")
    asks = f"kill -0 $(cat {pid}) || exit 1; read name < /sys{CHIP}/name || kill -USR1 $(cat {pid}); :"
    ran = explore(tools, *words, asks, script=ends)
    must(ran.returncode == 2 and " 0 finds" in last_line(ran), f"it ends without a fault, and starts once: {ran}")


def daemons(tools):
    """An exploration queries a daemon, which goes on from run to run, and finds the query that it dies of"""
    pid = "/dev/shm/daemon.pid"  # with -n each tree has its own
    daemon = f"echo $$ > {pid}; exec sleep 987"
    poke = f"read name < /sys{CHIP}/name || {{ kill -ABRT $(cat {pid}); exit 1; }}"
    words = ["-n", "--actions", "unplug", "--runs", "9", "--poke", poke]
    ran = explore(tools, *words, script=daemon)
    must(ran.returncode == 1 and found_in(ran)[0][0] == "killed by SIGABRT", ran)
    again = explore(tools, *words, "-j", "2", script=daemon)
    must(again.stdout == ran.stdout, f"side by side: {again} {ran}")
    silent = explore(tools, *words[:-1], "false", "--calm", "0.5", script=daemon)
    must(silent.returncode == 2 and "--poke" in silent.stderr, silent)


def wrong_words(tools):
    """An exploration that cannot be is refused in one line, before anything runs"""
    for words, script, part in (
        (["--json", "/no/such/report"], TRUSTING, "/no/such/report: No such file or directory"),
        (["--junit", tools.folder], TRUSTING, "Is a directory"),
        (["--device", "/devices/none"], TRUSTING, "no directory /devices/none"),
        (["--actions", "unplug,frob"], TRUSTING, "not an action: frob"),
        (["--runs", "-1"], TRUSTING, "out of range"),
        (["--seconds", "0"], TRUSTING, "out of range"),
        (["-j", "0"], TRUSTING, "out of range"),
        (["--known", "no-such-file"], TRUSTING, "no-such-file: No such file"),
        (["--at", f"unplug {CHIP}"], TRUSTING, "must begin with `at `"),
        (["--at", f"at peek {CHIP}/name 1 unplug {CHIP}"], TRUSTING, "--at: "),
        (["--at", f"at read {CHIP}/nothing 1 unplug {CHIP}"], TRUSTING, "--at: No such file or directory"),
        (["--at", f"at read {CHIP}/name 0 unplug {CHIP}"], TRUSTING, "--at: "),
        (["--at", f"at read {CHIP}/name 1 hide {CHIP}/name;;rm {CHIP}"], TRUSTING, "--at: no line rm"),
        (["--at", f"at read {CHIP}/name 1 unplug {CHIP}", "--json", "x.json"], TRUSTING, "no --json"),
        ([], "true", "no step that depends on a device"),
        ([], f"cat /sys{CHIP}/name; kill -SEGV $$", "killed by SIGSEGV"),
        (["--hang", "0.5"], "exec sleep 988", "a daemon needs --poke"),
    ):
        ran = explore(tools, *words, script=script)
        must(ran.returncode == 2 and part in ran.stderr, f"{words}: {ran}")
        must("points" not in ran.stdout and "Traceback" not in ran.stderr, f"{words}: {ran}")
    ran = tools.run("explore", tools.chip, "--", "no-such-command")
    must(ran.returncode == 2 and "no-such-command" in ran.stderr, ran)


def shrunk(tools):
    """The lines of a storm are made few, and the exploration of what is left ends with the line that repeats the find"""
    kept, few = tools.folder / "kept.tl", tools.folder / "few.tl"
    reader = f"while :; do {TRUSTING}; done 2> /dev/null"
    storm = tools.run("storm", "--seed", "7", "--time", "30", "-o", kept, tools.chip, "--", "sh", "-c", reader, timeout=PATIENCE)
    must(storm.returncode == 1, storm)
    before = kept.read_text().count("\n") - 1
    ran = tools.run("shrink", "--time", "300", "-o", few, kept, tools.chip, "--", "sh", "-c", TRUSTING, timeout=PATIENCE)
    must(ran.returncode == 0 and found_in(ran) and found_in(ran)[0][0] == "killed by SIGSEGV", ran)
    left = few.read_text().split("\n")[:-1]
    must(few.read_text() not in ran.stdout, f"they are not printed too: {ran}")
    with tools.file("said", "before\n").open("a") as output:
        ran = tools.run("shrink", "--time", "60", few, tools.chip, "--", "sh", "-c", TRUSTING, stdout=output, capture_output=False,
                        timeout=PATIENCE)
    said = (tools.folder / "said").read_text()
    must(said.startswith("before\nfakesys shrink: "), f"what was printed stays: {said} {ran}")
    again = "lines are left after" if ran.returncode == 0 else "it does not fail again"  # (a replay may miss the moment)
    must(again in said, f"{said} {ran}")
    # (between two turns of a replay all devices go and come, so any one line may be enough)
    must(0 < len(left) <= before, f"{before} lines: {left}")
    for words in (["no-such.tl", tools.chip, "--", "true"], ["-o", "/no/such", kept, tools.chip, "--", "true"]):
        ran = tools.run("shrink", *words)
        must(ran.returncode == 2 and "No such file" in ran.stderr, f"{words}: {ran}")
    unmounted = tools.run("shrink", kept, tools.chip, "--", "true", env={**os.environ, "FAKESYSFS": "/no/such"})
    must(unmounted.returncode == 125 and "cannot be replayed" in unmounted.stderr, unmounted)
    return f"{before} lines to {len(left)}"


def shrunk_hang(tools):
    """A hang comes again in tries that are shorter than the time after which it counts"""
    lines = tools.file("hang.tl", f"0 unplug {CHIP}\n1.5 plug {CHIP}\n1.6 notify {CHIP}/name\n")
    words = ["--seconds", "0.3", "--hang", "1", "--time", "10", lines, tools.chip, "--", "sh", "-c"]
    ran = tools.run("shrink", *words, f"sleep 0.1; [ -e /sys{CHIP} ] || sleep 986", timeout=PATIENCE)
    must(ran.returncode == 0 and "hangs: it did not end in 1 s" in ran.stdout, ran)
    left = re.search(r"(\d) of 3 lines are left after (\d) tries", ran.stdout)
    must(left and int(left[1]) < 3, f"lines that it needs not are left out: {ran}")
    words[1:6:2] = "0.5", "0", "5"
    ran = tools.run("shrink", *words, f"[ -e /sys{CHIP} ] || kill -SEGV $$", timeout=PATIENCE)
    must(ran.returncode == 0 and found_in(ran) and "usage" not in ran.stdout + ran.stderr, f"without a limit: {ran}")


def shrunk_at_once(tools):
    """A storm with --shrink ends with few lines and with the line that repeats its find, or with nothing if it found nothing"""
    words = ["--seed", "7", "--time", "30", "--kinds", "plug", "--shrink", "240", tools.chip, "--", "sh", "-c"]
    ran = tools.run("storm", *words, TRUSTING, timeout=PATIENCE)
    must(ran.returncode == 1 and "FOUND after" in ran.stdout, ran)
    count = int(re.search(r"^fakesys storm: shrinking (\d+) lines for up to 240 s$", ran.stdout, re.M)[1])
    left = re.findall(r"^ {4}\d+\.\d+ \w+ /", ran.stdout[ran.stdout.index("lines are left") :], re.M)
    must(0 < len(left) <= count and found_in(ran) and found_in(ran)[0][0] == "killed by SIGSEGV", ran)
    sound = tools.run("storm", "--time", "1", "--shrink", "60", tools.chip, "--", "true")
    must(sound.returncode == 0 and "no fault" in sound.stdout and "shrinking" not in sound.stdout, sound)
    piped = tools.run("storm", "--shrink", "60", "-", "--", "true", input=tools.chip.read_text())
    must(piped.returncode == 2 and "--shrink" in piped.stderr, piped)
    ran = tools.run("storm", "--shrink", "-1", tools.chip, "--", "true")
    must(ran.returncode == 2 and "out of range" in ran.stderr, ran)
    with subprocess.Popen(tools.command("storm", *words, "sleep 981"), stdout=subprocess.DEVNULL) as storm:
        must(eventually(lambda: processes("981")), "it runs")
        storm.terminate()
    must(eventually(lambda: not processes("981")) and not leftovers(), f"its storm ends with it: {leftovers()}")
    return f"{count} lines to {len(left)}"


CASES = (explored, piped, at_once, reported, judged, told_apart, daemons, daemons_start, wrong_words, shrunk, shrunk_hang, shrunk_at_once)
