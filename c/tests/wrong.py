# SPDX-License-Identifier: MIT OR Apache-2.0
"""Wrong uses of the library: a compiler warns of those below, and a sanitizer reports those of wrong.c. uses.c and hiding.c
test those that return an error number."""

# What is wrong, the code, the warning, and the compilers that know it.
WARNED = [
    ("an answer is thrown away", "kt_remove(&tree, key);", "unused-result", ("gcc", "clang")),
    ("no key is made", "kt_create_dir(&tree, key, \"d\", 1, true, &key);", "unused-result", ("gcc", "clang")),
    ("an enter is not looked at", "kt_enter(&hold);", "unused-result", ("gcc", "clang")),
    ("a tree is NULL", "return kt_walk(NULL, \"/\", 1, &key);", "nonnull", ("gcc", "clang")),
    ("out is NULL", "return kt_root(&tree, NULL);", "nonnull", ("gcc", "clang")),
    ("kt_new(NULL)", "return kt_new(NULL);", "nonnull", ("gcc", "clang")),
    ("no place for what is told", "return kt_stat(&tree, key, NULL);", "nonnull", ("gcc", "clang")),
    ("a call of no handle", "return kt_leave(NULL);", "nonnull", ("gcc", "clang")),
    ("a path is shorter than its length", "return kt_walk(&tree, \"/fan0\", 9, &key);", "stringop-overread", ("gcc",)),
    ("a name is shorter than its length", "return kt_find(&tree, key, \"fan0\", 9, &key);", "stringop-overread", ("gcc",)),
    ("a text is shorter than its length", "return kt_shown(&hold, \"fan0\", 9);", "stringop-overread", ("gcc",)),
    ("NULL with a length", "return kt_find(&tree, key, NULL, 5, &key);", "nonnull", ("gcc",)),
    ("a room is smaller than it is said to be", "return (int)kt_path(&tree, key, small, 64);", "stringop-overflow", ("gcc",)),
    ("a page is smaller than it is said to be", "return (int)kt_copy(&hold, 0, small, 64);", "stringop-overflow", ("gcc",)),
]
RIGHT = (
    "char name[KT_NAME_MAX], path[KT_PATH_MAX(2)]; kt_leave(&hold); kt_clear(&hold); kt_compact(&tree); kt_notify(&hold);"
    "return kt_walk(&tree, NULL, 0, &key) + kt_walk(&tree, \"/\", 1, &key) + (int)kt_name(&tree, key, small, sizeof small)"
    "+ (int)kt_next(&tree, key, NULL, 0, name, sizeof name) + (int)kt_path(&tree, key, path, sizeof path)"
    "+ kt_shown(&hold, NULL, 0) + (int)kt_copy(&hold, 9, NULL, 0);"
)

# What the sanitizers say, and of which uses.
FREED, NO_HANDLE, RACE, USED_FREED = "heap-use-after-free", "SEGV", "data race", "heap-use-after-free"
OF_A_CALL = "kt_delete() of a call: leave it first"
OTHER = "a key of another tree"
OTHERS = ("other_key", "other_key_back", "other_parent", "other_target", "other_place", "freed_tree", "other_live")
REPORTED = {
    "address": {
        **dict.fromkeys(
            ("entered", "left", "cleared", "deleted", "walked", "held", "copied", "doubled", "passed"), FREED
        ),
        "deleted_inside": OF_A_CALL,
        **dict.fromkeys(("long_path", "long_name", "long_new_name", "long_shown"), "heap-buffer-overflow"),
        "zeroed": NO_HANDLE,
        **dict.fromkeys(OTHERS, OTHER),
    },
    "thread": {
        **dict.fromkeys(("one_hold", "one_file", "no_lock", "half_locked", "one_node", "two_nodes", "freed_early"), RACE),
        **dict.fromkeys(("one_pass", "two_gates", "shut_early"), RACE),
        **dict.fromkeys(("entered", "left", "cleared", "walked", "copied", "doubled", "passed"), USED_FREED),
        **dict.fromkeys(OTHERS, OTHER),
    },
}
# (the last two of these make more trees, and more handles, than kt_check.h has room for)
SILENT = [
    "right_lock",
    "right_removal",
    "right_removal_above",
    "right_removal_moved",
    "right_second_hold",
    "right_hiding",
    "right_activation",
    "right_shutting",
    "right_gated_removal",
    "right_trees",
    "right_handles",
]


def warns(run, compiler, include, room):
    """None if the compiler warns of each wrong use, and of no right one; else what it did."""
    source = room / "warned.c"
    head = (
        "#include <kernfs_tree.h>\nint use(struct kt_handle tree, struct kt_handle hold, struct kt_key key);\n"
        "int use(struct kt_handle tree, struct kt_handle hold, struct kt_key key)\n{\n    char small[8];\n"
        "    (void)small, (void)hold, (void)tree, (void)key;\n"
    )
    # (kt_check.h puts its own functions before the library's under a sanitizer: those warn too)
    for flags in ([], ["-fsanitize=thread"]):
        words = [compiler, "-std=gnu11", "-O2", "-Wall", "-Wextra", "-Werror", *flags, "-I", include, "-c", source]
        words += ["-o", room / "warned.o"]
        source.write_text(f"{head}    {RIGHT}\n}}\n")
        made = run(words)
        if made.returncode:
            return made.stderr
        for what, code, warning, compilers in WARNED:
            if compiler not in compilers or (flags and warning != "unused-result"):
                continue
            source.write_text(f"{head}    {code}\n    return 0;\n}}\n")
            made = run(words)
            if made.returncode == 0 or f"-Werror={warning}" not in made.stderr and f"-W{warning}" not in made.stderr:
                return f"{what}: no word of it {' '.join(flags)}"
    return None


def reports(run, program, sanitizer):
    """None if the sanitizer reports each wrong use, and no right one; else what is missing."""
    for name, wanted in REPORTED[sanitizer].items():
        for _ in range(5):  # (a race is seen where the threads meet)
            ran = run([program, name])
            if ran.returncode and wanted in ran.stderr:
                break
        else:
            return f"{name}: status {ran.returncode}, no {wanted}: {ran.stderr[-800:]}"
    for name in SILENT:
        ran = run([program, name])
        if ran.returncode or ran.stderr.strip():
            return f"{name}: status {ran.returncode}: {ran.stderr[-1500:]}"
    return None
