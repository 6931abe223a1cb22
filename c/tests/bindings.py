# SPDX-License-Identifier: MIT OR Apache-2.0
"""The bindings for other languages: kt_bind.c, the headers for C++, the crates for Rust, and the plug-in host in each."""

import os
import re
import shutil
from pathlib import Path

# The plug-in host loads and unloads two plug-ins so often; by hand: 10,000 times.
CYCLES, FEWER_CYCLES = "200", "50"
WARNINGS = ["-Wall", "-Wextra", "-Wshadow", "-Werror"]
SANITIZERS = (("", []), ("ASan and UBSan", ["-fsanitize=address,undefined", "-O1"]), ("TSan", ["-fsanitize=thread", "-O1"]))
# what runs with each sanitizer
CXX = (("tests/holds.cpp",), ("tests/service.cpp", "1000"), ("tests/fronts.cpp",))


class Bindings:
    """The tests, with what c/test gives them: how to run a program, whether a compiler can build and run, and the folders."""

    def __init__(self, run, works, here, room, archive):
        self.run, self.works, self.here, self.room, self.archive = run, works, here, room, archive

    def compiled(self, compiler, sources, name, flags):
        """Compiles a program over the archive. What the compiler printed if that fails."""
        standard = "-std=c++17" if "++" in compiler else "-std=gnu11"
        words = [compiler, standard, "-O1", "-g", *WARNINGS, *flags, "-I", self.here / "include", "-o", self.room / name]
        made = self.run([*words, *(self.here / it for it in sources), self.archive, "-pthread", "-ldl"])
        return made.stderr[-1500:] if made.returncode else None

    def ended(self, words, wanted="", **more):
        """None if a program ends with status 0, prints nothing on standard error, and has these words in its output."""
        ran = self.run([str(it) for it in words], **more)
        if ran.returncode or ran.stderr.strip() or wanted not in ran.stdout:
            return f"status {ran.returncode}: {ran.stdout[-600:]} {ran.stderr[-1500:]}"
        return None

    def program(self, compiler, sources, flags, *words):
        stop = ["-fno-sanitize-recover=all"] if flags else []
        name = Path(sources[0]).stem
        wrong = self.compiled(compiler, sources, name, [*flags, *stop])
        return wrong or self.ended([self.room / name, *words])

    def exported(self):
        """The shared library exports the functions of kt_bind.h and kt_live.h, and nothing else."""
        text = re.sub(r"/\*.*?\*/|typedef[^;]*;", "", (self.here / "include/kt_bind.h").read_text(), flags=re.S)
        declared = set(re.findall(r"\b(kt_bind_\w+)\([^;{)]*\bstruct kt_", text))
        text = re.sub(r"/\*.*?\*/", "", (self.here / "include/kt_live.h").read_text(), flags=re.S)
        declared |= set(re.findall(r"\bKT_LIVE_CALL [^;{]*?(kt_live_\w+)\([^{;]*\);", text))
        shared = sorted(self.archive.parent.glob("libkernfs_tree_bind.so.*"))
        if len(shared) != 1:
            return f"{len(shared)} shared libraries beside the archive"
        printed = self.run(["nm", "--dynamic", "--extern-only", "--defined-only", "--portability", shared[0]]).stdout
        names = {line.split()[0] for line in printed.splitlines()} - {"_init", "_fini"}
        return ", ".join(sorted(names ^ declared)) or (None if len(declared) > 25 else "the headers declare few functions")

    def plugins(self, compiler, flags, cycles):
        """The plug-in host of a language, with one plug-in in C and one in this language."""
        end = ".cpp" if "++" in compiler else ".c"
        for source, name, more in (("plugin" + end, "one.so", []), ("plugin" + end, "two.so", [])):
            wrong = self.shared(compiler, source, name, [*flags, *more])
            if wrong:
                return wrong
        wrong = self.compiled(compiler, ["tests/plugin_host" + end], "plugin_host", flags)
        words = [self.room / "plugin_host", cycles, self.room / "one.so", self.room / "two.so"]
        return wrong or self.ended(words, f"\n{2 * int(cycles)} unmapped")

    def shared(self, compiler, source, name, flags):
        words = [compiler, "-O1", "-g", *WARNINGS, *flags, "-shared", "-fPIC", "-o", self.room / name]
        made = self.run([*words, self.here / "tests" / source])
        return made.stderr[-1500:] if made.returncode else None

    def cargo(self, *words, **more):
        env = {**os.environ, "CARGO_TARGET_DIR": str(self.room / "rust"), "CARGO_TERM_COLOR": "never", **more}
        env["KERNFS_TREE_LIB_DIR"] = str(self.archive.parent)
        return self.run(["cargo", *words, "--offline", "--locked", f"--manifest-path={self.here / 'rust/Cargo.toml'}"], env=env)

    def rust_tests(self):
        """The tests of the crates, with those of the documentation: what must not compile does not."""
        ran = self.cargo("test", "--jobs", "2")
        counts = re.findall(r"test result: ok. (\d+) passed", ran.stdout)
        if ran.returncode or "warning" in ran.stderr or sum(map(int, counts)) < 15:
            return f"status {ran.returncode}: {ran.stdout[-2000:]} {ran.stderr[-2000:]}"
        return None

    def rust_asan(self):
        """The tests with AddressSanitizer, which a stable compiler has too, behind a switch."""
        flags = {"RUSTC_BOOTSTRAP": "1", "RUSTFLAGS": "-Zsanitizer=address"}
        ran = self.cargo("test", "--jobs", "2", "--tests", "--target=x86_64-unknown-linux-gnu", **flags)
        return f"{ran.stdout[-2000:]} {ran.stderr[-2000:]}" if ran.returncode else None

    def rust_host(self):
        """The plug-in host in Rust, with one plug-in in Rust and one in C."""
        made = self.cargo("build", "--jobs", "2", "--examples", "--release")
        if made.returncode:
            return made.stderr[-2000:]
        wrong = self.shared("cc", "plugin.c", "two.so", [])
        examples = self.room / "rust/release/examples"
        words = [examples / "plugin_host", CYCLES, examples / "libplugin.so", self.room / "two.so"]
        return wrong or self.ended(words, f"\n{2 * int(CYCLES)} unmapped")

    def checks(self):
        """The lines and their tests. What a machine lacks is said."""
        if shutil.which("nm"):
            yield "bindings: the exported names", self.exported
        cxx = [it for it in ("g++", "clang++") if shutil.which(it)]
        for name, flags in SANITIZERS:
            label = f"{name}: " if name else ""
            if not self.works(*flags):
                print(f"{label}bindings: skipped, not available")
                continue
            yield f"{label}bindings: tests/bind.c", lambda flags=flags: self.program(
                "cc", ["tests/bind.c", "src/kt_bind.c"], flags
            )
            for source, *words in CXX if cxx else ():
                yield f"{label}C++: {source}", lambda source=source, words=words, flags=flags: self.program(
                    cxx[0], [source], flags, *words
                )
            cycles = FEWER_CYCLES if flags else CYCLES
            for compiler in ("cc", *cxx[:1]):
                yield f"{label}plug-in host: {compiler}", lambda compiler=compiler, flags=flags, cycles=cycles: self.plugins(
                    compiler, flags, cycles
                )
        for compiler in cxx[1:]:
            for source, *words in CXX:
                yield f"{compiler}: {source}", lambda source=source, words=words, compiler=compiler: self.program(
                    compiler, [source], [], *words
                )
        if not cxx:
            print("C++: skipped, neither g++ nor clang++ is here")
        yield from self.rust_checks()

    def rust_checks(self):
        if not shutil.which("cargo") or self.run(["cargo", "--version"]).returncode:
            print("Rust: skipped, cargo is missing")
            return
        yield "Rust: the tests of the crates", self.rust_tests
        yield "Rust: plug-in host", self.rust_host
        source = self.room / "asan.rs"
        source.write_text("fn main() {}\n")
        words = ["rustc", "-Zsanitizer=address", "-o", self.room / "asan", source]
        if self.run(words, env={**os.environ, "RUSTC_BOOTSTRAP": "1"}).returncode or self.run([self.room / "asan"]).returncode:
            print("ASan: Rust: skipped, not available")
        else:
            yield "ASan: Rust: the tests of the crates", self.rust_asan
