# SPDX-License-Identifier: MIT OR Apache-2.0
"""What is installed, and the ways in which programs find it: pkg-config, CMake, manual pages, dlopen, Python."""

import os
import re
import shlex
import sys

# Functions of the headers that are no program's to call.
INNER = {"kt_dump_line", "kt_unlock_of", "kt_end_of", "kt_show_into", "kt_until_done", "kt_time_in", "kt_sleep_until"}
INNER |= {"kt_step_until", "kt_pass_end_of", "kt_shut_locked", "kt_shut_until", "kt_remove_gated_until"}
PROTOTYPE = re.compile(
    r"^(?:KT_\w+(?:\([\d, ]*\))?\s+)*(?:static inline )?((?:const char|struct kt_key|\w+) \*?(kt_\w+)\([^)]*\))\s*[;{]", re.M
)
CMAKE = """cmake_minimum_required(VERSION 3.13)
project(example C)
find_package(kernfs_tree {version} REQUIRED)
add_executable(shared example.c)
target_link_libraries(shared kernfs_tree::kernfs_tree)
add_executable(static example.c)
target_link_libraries(static kernfs_tree::static)
add_executable(bind bind.c)
target_link_libraries(bind kernfs_tree::bind)
add_executable(bind_static bind.c)
target_link_libraries(bind_static kernfs_tree::bind_static)
foreach(other 0.1 {version}.999)
    find_package(kernfs_tree ${{other}} QUIET)
    if(kernfs_tree_FOUND)
        message(FATAL_ERROR "this version is taken for ${{other}}")
    endif()
endforeach()
"""
# A program over the library for bindings, which needs both libraries.
BIND = """#include <kt_bind.h>
int main(void)
{
    struct kt_bind_lock *lock;
    struct kt_handle tree;
    int32_t taken, result = kt_bind_new_lock(&lock);
    if (result || kt_new(&tree.at))
        return 1;
    taken = kt_bind_take(lock);
    result = kt_bind_take(lock);
    kt_bind_release(lock);
    result = result == -EDEADLK && !taken ? kt_bind_delete(tree, lock) : 1;
    kt_bind_delete_lock(lock);
    return result;
}
"""
PLUGIN = """#include <kt_live.h>
int plugin(void);
int plugin(void)
{
    struct kt_live *live;
    struct kt_key key;
    int32_t result = kt_live_new(&live, 8);
    if (!result)
        result = kt_live_publish(live, "/d", NULL, 0, NULL, &key);
    if (!result && kt_live_unpublish(live, key) != 1)
        result = -EIO;
    return result ? result : kt_live_delete(live);
}
"""
LOADER = """#include <dlfcn.h>
int main(int count, char **names)
{
    for (int turn = 0; turn < 3; turn++) {
        void *each[2] = {0};
        for (int i = 1; i < count; i++) {
            int (*plugin)(void);
            each[i - 1] = dlopen(names[i], RTLD_NOW | RTLD_LOCAL);
            if (!each[i - 1])
                return 2;
            *(void **)&plugin = dlsym(each[i - 1], "plugin");
            if (!plugin || plugin())
                return 3;
        }
        for (int i = 1; i < count; i++)
            if (dlclose(each[i - 1]))
                return 4;
    }
    return 0;
}
"""


def install(run, here, prefix):
    """What make printed if it did not install, or what other users may not read; the umask is strict."""
    made = run(["make", "-C", here, "install", f"PREFIX={prefix}"], umask=0o077)
    if made.returncode:
        return made.stdout[-600:] + made.stderr[-600:]
    closed = [str(it) for it in prefix.rglob("*") if it.is_file() and it.stat().st_mode & 0o044 != 0o044]
    return closed and f"others may not read {', '.join(closed)}"


def version(here):
    numbers = re.findall(r"^#define KT_VERSION_M(?:AJOR|INOR) (\d+)", (here / "include/kernfs_tree.h").read_text(), re.M)
    return ".".join(numbers)


def found_by_pkg_config(run, here, room):
    """What is installed suffices: the example is built with the flags of pkg-config, without this folder."""
    prefix = room / "at a place"
    wrong = install(run, here, prefix)
    if wrong:
        return wrong
    env = {**os.environ, "PKG_CONFIG_PATH": f"{prefix}/lib/pkgconfig"}
    (room / "bind.c").write_text(BIND)
    for name in ("kernfs_tree-static", "kernfs_tree", "kernfs_tree_bind-static", "kernfs_tree_bind"):
        path = "" if name.endswith("-static") else f"{prefix}/lib"
        source = room / "bind.c" if "bind" in name else here / "example.c"
        told = run(["pkg-config", "--cflags", "--libs", name], env=env)
        made = run(["cc", "-o", "installed", source, *shlex.split(told.stdout)])
        if told.returncode or made.returncode:
            return told.stderr + made.stderr
        if run([room / "installed"], env={**os.environ, "LD_LIBRARY_PATH": path}).returncode:
            return f"{source.name} fails, linked by {name}"
    return None


def found_by_cmake(run, here, room):
    """CMake's find_package() finds both libraries, even after the installation was moved, but no other minor version."""
    wrong = install(run, here, room / "before")
    if wrong:
        return wrong
    (room / "before").rename(room / "usr")
    (room / "lib").symlink_to("usr/lib")  # as where /lib is /usr/lib
    project = room / "project"
    project.mkdir()
    (project / "CMakeLists.txt").write_text(CMAKE.format(version=version(here)))
    (project / "example.c").write_bytes((here / "example.c").read_bytes())
    (project / "bind.c").write_text(BIND)
    for words in (["-S", project, "-B", project / "out", f"-DCMAKE_PREFIX_PATH={room}"], ["--build", project / "out"]):
        made = run(["cmake", *words])
        if made.returncode:
            return made.stdout[-600:] + made.stderr[-1200:]
    for name in ("shared", "static", "bind", "bind_static"):
        if run([project / "out" / name]).returncode:
            return f"the program {name} fails"
    return None


def has_pages(run, here, room):
    """Each function has a manual page with its name, and its declaration is that of the header."""
    wrong = install(run, here, room / "pages")
    if wrong:
        return wrong
    manual, missing = room / "pages/share/man/man3", []
    for header, page in (
        ("kernfs_tree.h", "kernfs_tree.3"),
        ("kt_tell.h", "kernfs_tree.3"),
        ("kt_wait.h", "kernfs_tree.3"),
        ("kt_gates.h", "kernfs_tree.3"),
        ("kt_live.h", "kt_live.3"),
        ("kt_bind.h", "kernfs_tree-bindings.3"),
    ):
        text = re.sub(r"/\*.*?\*/", "", (here / "include" / header).read_text().split("/* ---- what these are made of")[0], flags=re.S)
        shown = re.sub(r"^\.BI?|[\s\"\\]", "", (manual / page).read_text().split(".SH DESCRIPTION")[0], flags=re.M)
        for prototype, name in PROTOTYPE.findall(text):
            link = manual / f"{name}.3"
            if name in INNER:
                continue
            if not link.exists() or link.read_text() != f".so man3/{page}\n":
                missing.append(f"no page {name}.3")
            if re.sub(r"\s", "", prototype) not in shown:
                missing.append(f"{page} declares {name} otherwise than {header}")
    links = [it for it in manual.iterdir() if it.read_text().startswith(".so")]
    return ", ".join(missing) or (None if len(links) > 60 else f"{len(links)} functions have a page")


def works_as_plugin(run, here, room, archive):
    """Two plugins with the archive in each, opened and closed again and again in a program without it."""
    (room / "plugin.c").write_text(PLUGIN)
    (room / "loader.c").write_text(LOADER)
    flags = ["-O2", "-Wall", "-Wextra", "-Werror"]
    for name in ("one.so", "two.so"):
        made = run(["cc", *flags, "-shared", "-fPIC", "-I", here / "include", "-o", name, "plugin.c", archive, "-pthread"])
        if made.returncode:
            return made.stderr
    made = run(["cc", *flags, "-o", "loader", "loader.c", "-ldl"])
    if made.returncode:
        return made.stderr
    ran = run([room / "loader", room / "one.so", room / "two.so"])
    return f"status {ran.returncode}" if ran.returncode else None


def closes_plugin(run, here, room, archive):
    """A plugin that unpublishes itself in its own store goes on there; then the host closes it: its code is unmapped."""
    flags = ["-O2", "-Wall", "-Wextra", "-Werror", "-I", here / "include", "-pthread"]
    plugin, host = here / "tests/self_plugin.c", here / "tests/self_host.c"
    whole = ["-Wl,--whole-archive", archive, "-Wl,--no-whole-archive"]
    for words in (
        ["cc", *flags, "-shared", "-fPIC", "-o", "self.so", plugin],
        ["cc", *flags, "-rdynamic", "-o", "host", host, *whole, "-ldl"],
    ):
        made = run(words)
        if made.returncode:
            return made.stderr
    ran = run([room / "host", room / "self.so"])
    return f"status {ran.returncode}: {ran.stdout[-600:]} {ran.stderr[-600:]}" if ran.returncode else None


def works_in_python(run, here, archive):
    """The tests of the Python modules, with the shared library beside the archive."""
    env = {**os.environ, "PYTHONPATH": f"{here}/python:{here}/tests", "PYTHONDONTWRITEBYTECODE": "1"}
    env["KERNFS_TREE"] = str(archive.parent / f"libkernfs_tree.so.{version(here)}")
    ran = run([sys.executable, "-m", "unittest", "test_kernfs_tree", "test_kernfs_live"], env=env)
    return None if ran.returncode == 0 and "\nOK" in ran.stderr else ran.stderr[-1500:]
