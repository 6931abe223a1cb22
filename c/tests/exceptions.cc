// SPDX-License-Identifier: MIT OR Apache-2.0
// A C++ exception that leaves a callback, in each call that runs one: the callback has ended, so the removal ends too.
// It prints a line for each test; the last line is 'N passed, M failed'.
#include <kt_live.h>

#include <stdexcept>

#include "trying.h"

namespace {

kt_lock lock = KT_LOCK_INIT;
kt_handle tree, hold, file, gate, pass;
kt_live *live;
kt_live_file *open_file;
char text[8];

[[noreturn]] int64_t fail() { throw std::runtime_error("a callback fails"); }

int64_t callback(kt_handle *call, void *)
{
    kt_break_wake(call, &lock);
    fail();
}
int64_t by_pass(kt_handle *, void *) { fail(); }
int64_t show(kt_handle *, void *, char *) { fail(); }
int64_t store(kt_handle *, void *, const char *, size_t) { fail(); }
int64_t live_show(void *, const kt_attribute *, char *) { fail(); }
int64_t live_store(void *, const kt_attribute *, const char *, size_t) { fail(); }
int64_t live_function(void *, void *) { fail(); }
const kt_attribute attributes[] = {{"speed", 0644, live_show, live_store, 0}};

template <class Call>
bool throws(Call call)
{
    try {
        (void)call();
    } catch (const std::runtime_error &) {
        return true;
    }
    return false;
}

} // namespace

int main()
{
    kt_key root, key, dir;
    TRY(kt_new(&tree.at) || kt_new(&hold.at) || kt_new(&file.at) || kt_create_root(&tree, 16, 16) ||
            kt_root(&tree, &root) || kt_create_file(&tree, root, "f", 1, 0644, 0, true, &key) ||
            kt_hold(&tree, key, &hold) || kt_open(&tree, key, true, true, &file) || kt_new(&gate.at) ||
            kt_new(&pass.at) || kt_hold(&tree, key, &gate) || kt_gate(&gate, 1, &pass),
        0);
    TRY(throws([] { return kt_pass_run(&pass, &lock, by_pass, nullptr); }), true);
    TRY(kt_pass_leave(&pass), -EINVAL);
    TRY(kt_shut_wait(&gate, &lock), 0);
    TRY(throws([] { return kt_run(&hold, &lock, callback, nullptr); }), true);
    TRY(throws([] { return kt_read(&file, &lock, 0, text, sizeof text, show, nullptr); }), true);
    TRY(throws([] { return kt_write(&file, &lock, "1", 1, store, nullptr); }), true);
    TRY(kt_remove_wait(&tree, key, &lock), 1);
    TRY(kt_delete(pass) || kt_delete(gate) || kt_delete(hold) || kt_delete(file) || kt_delete(tree), 0);

    TRY(kt_live_new(&live, 16) || kt_live_publish(live, "/d", attributes, 1, nullptr, &dir) ||
            kt_live_open(live, "/d/speed", true, true, &open_file),
        0);
    TRY(throws([] { return kt_live_read(live, "/d/speed", text, sizeof text); }), true);
    TRY(throws([] { return kt_live_write(live, "/d/speed", "1", 1); }), true);
    TRY(throws([] { return kt_live_run(live, "/d", live_function, nullptr); }), true);
    TRY(throws([] { return kt_live_pread(open_file, 0, text, sizeof text); }), true);
    TRY(throws([] { return kt_live_pwrite(open_file, "1", 1); }), true);
    TRY(kt_live_unpublish(live, dir), 1);
    TRY(kt_live_close(open_file) || kt_live_delete(live), 0);
    return tried();
}
