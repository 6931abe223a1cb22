/* SPDX-License-Identifier: MIT OR Apache-2.0 */
/* kernfs_tree.hpp: holds, files and posts of a fan that goes while two threads enter it, gates and passes, and what a
 * thread may not do while it has an editor. It prints a line for each test that fails; the last line is 'N passed, M
 * failed'. A signal ends a program that hangs. */
#include <iostream>
#include <kernfs_tree.hpp>
#include <unistd.h>
#include <unordered_set>

namespace {

int passed, failed;

void expect(const char *what, bool is_right)
{
    if (is_right) {
        ++passed;
        return;
    }
    ++failed;
    std::cout << what << ": FAILED\n";
}

/* Whether a body throws this exception. */
template <class Error, class Body> bool throws(Body &&body)
{
    try {
        body();
        return false;
    } catch (const Error &) {
        return true;
    }
}
template <class Body> int error_of(Body &&body)
{
    try {
        body();
        return 0;
    } catch (const kernfs::error &error) {
        return error.number();
    }
}

void names_and_keys()
{
    kernfs::tree tree(16, 8);
    auto edit = tree.edit();
    auto dir = edit.create_dir(edit.root(), "d"), file = edit.create_file(dir, "f", 0640, 7);
    auto link = edit.create_link(edit.root(), "l", file);
    expect("a path", edit.path(file) == "/d/f" && edit.walk("/d/f") == file && edit.name(file) == "f");
    expect("a link", edit.readlink(link) == "d/f" && edit.stat(link).kind == KT_LINK && edit.stat(link).target == file);
    expect("a node", edit.stat(file).tag == 7 && edit.stat(file).mode == 0640 && edit.parent(file) == dir);
    edit.rename(file, edit.root(), "g");
    expect("a rename", edit.find(edit.root(), "g") == file && error_of([&] { edit.find(dir, "f"); }) == ENOENT);
    kt_child at{};
    std::string names;
    while (edit.next(edit.root(), at))
        names += at.name;
    expect("a list", names == "dgl");
    expect("no list of a file", error_of([&] { kt_child none{}; edit.next(file, none); }) == ENOTDIR);
    expect("a name that is taken", error_of([&] { edit.create_dir(edit.root(), "d"); }) == EEXIST);
    std::unordered_set<kernfs::key> keys = {dir, file, link, file};
    expect("keys can be hashed", keys.size() == 3 && keys.count(dir) && dir != file);
    for (int i = 0; i < 3000; i++)
        edit.rename(file, edit.root(), i % 2 ? "g" : "h");
    edit.tidy();
    expect("a tidy tree", edit.find(edit.root(), "g") == file);
    expect("the first claim", edit.claim(file) && !edit.claim(file));
    edit.unlock();
    expect("the first removal", tree.remove_wait(file) && !tree.remove_wait(file));
}

void editors_and_waits()
{
    kernfs::tree tree(8, 8);
    auto edit = tree.edit();
    auto file = edit.create_file(edit.root(), "f", 0644, 0);
    { auto held = edit.hold(file); } // may go under the lock
    expect("no removal with an editor", throws<std::logic_error>([&] { tree.remove_wait(file); }));
    expect("no second editor", throws<std::logic_error>([&] { auto second = tree.edit(); }));
    auto hold = edit.hold(file);
    edit.unlock();
    tree.hide_wait(file);
    expect("a hidden file", !hold.enter());
    tree.unhide_wait(file);
    expect("a file that is shown again", bool(hold.enter()));
    edit.lock();
    expect("entered with an editor", bool(hold.enter()));
    edit.unlock();
    auto call = hold.enter();
    expect("a call removes its node", tree.remove_self_wait(call, file));
    call.leave();
    expect("a call that was left", !call && !hold.enter());
}

void files_and_posts()
{
    kernfs::tree tree(8, 8);
    auto edit = tree.edit();
    auto key = edit.create_file(edit.root(), "speed", 0644, 0);
    auto file = edit.open(key, true, true);
    auto post = edit.post(key);
    edit.unlock();
    expect("a text", file.read([] { return std::string("1200\n"); }) == "1200\n");
    expect("the rest of it", file.read([] { return ""; }, 2) == "00\n");
    expect("not changed", !file.poll());
    post.notify();
    expect("changed", file.poll() && post.event() == 2);
    expect("a show that throws", throws<std::runtime_error>([&] {
               file.read([]() -> std::string { throw std::runtime_error("no sensor"); });
           }));
    expect("a store", file.write("900", [](std::string_view bytes) { return bytes.size(); }) == 3);
    expect("no bytes", file.write("", [](std::string_view) { return 9; }) == 0);
    expect("a removal after it", tree.remove_wait(key));
    expect("a file that is gone", error_of([&] { file.write("1", [](std::string_view) { return 1; }); }) == ENODEV);
    expect("a file that is gone has changed", file.poll());
}

void removal_under_load()
{
    kernfs::tree tree(8, 8);
    auto edit = tree.edit();
    auto fan = edit.create_dir(edit.root(), "fan0", false), speed = edit.create_file(fan, "speed", 0444, 0, false);
    edit.activate(fan);
    auto hold = edit.hold(speed);
    edit.unlock();
    std::atomic<long> count{0};
    auto use = [&count](kernfs::hold own) {
        while (auto call = own.enter())
            ++count;
    };
    std::thread one(use, hold.dup()), other(use, hold.dup());
    while (count < 1000)
        std::this_thread::yield();
    {
        auto call = hold.enter();
        expect("a removal with a limit", !tree.remove_wait_for(fan, std::chrono::milliseconds(20)));
        kernfs::call::broken aside(call);
        expect("a broken call", tree.remove_wait_for(fan, std::chrono::seconds(60)) == true);
        expect("it was out before", tree.remove_wait_for(fan, std::chrono::seconds(60)) == false);
    }
    one.join();
    other.join();
    expect("nobody enters again", !hold.enter());
}

/* Limits that are no unsigned number of milliseconds. */
void odd_limits()
{
    std::chrono::milliseconds below(-1), large(1LL << 32);
    kernfs::tree tree(8, 8);
    auto edit = tree.edit();
    auto file = edit.create_file(edit.root(), "hot", 0444, 0), other = edit.create_file(edit.root(), "f", 0444, 0);
    auto hold = edit.hold(other);
    kernfs::gate gate(edit.hold(file), 2);
    edit.unlock();
    auto pass = gate.pass(0);
    auto call = hold.enter();
    auto visit = pass.enter();
    expect("a removal with a limit below 0", !tree.remove_wait_for(other, below));
    expect("a shutting with a limit below 0", !gate.shut_wait_for(below));
    expect("a gated removal with a limit below 0", !tree.remove_gated_wait_for(gate, file, below));
    std::thread leaves([&] {
        usleep(20000);
        call.leave();
        usleep(20000);
        visit.leave();
    });
    expect("a removal with a large limit", tree.remove_wait_for(other, large) == true);
    expect("a shutting with a large limit", gate.shut_wait_for(large));
    expect("a gated removal with a large limit", tree.remove_gated_wait_for(gate, file, large) == true);
    expect("a second one", tree.remove_gated_wait_for(gate, file, large) == false);
    leaves.join();
}

void holds_of_two_trees()
{
    kernfs::tree first(8, 8), second(8, 8);
    auto edit = first.edit(), other = second.edit();
    auto a = edit.hold(edit.create_file(edit.root(), "a", 0444, 0)), b = other.hold(other.root());
    edit.unlock();
    other.unlock();
    b = std::move(a); // each has its own lock with it
    expect("a hold that was moved", bool(b.enter()));
}

void gates_and_passes()
{
    std::chrono::milliseconds soon(20);
    kernfs::tree tree(8, 8);
    auto edit = tree.edit();
    auto file = edit.create_file(edit.root(), "hot", 0444, 0, false);
    auto hold = edit.hold(file);
    expect("no gate of a node that is not live", error_of([&] { kernfs::gate none(std::move(hold), 2); }) == ENODEV);
    edit.activate(file);
    expect("its hold is still there", bool(hold.enter()));
    expect("no gate without lanes", error_of([&] { kernfs::gate none(std::move(hold), 0); }) == EINVAL);
    kernfs::gate gate(std::move(hold), 2);
    expect("no shutting with an editor", throws<std::logic_error>([&] { gate.shut_wait(); }));
    edit.unlock();
    auto first = gate.pass(0), second = first.another(1);
    {
        auto visit = first.enter();
        expect("inside by a pass", visit && error_of([&] { first.enter(); }) == EINVAL);
        expect("another too", bool(second.enter()));
        expect("a shutting with a limit", !gate.shut_wait_for(soon));
        expect("a gate that is shut", !second.enter());
        expect("a removal with a limit", !tree.remove_gated_wait_for(gate, file, soon));
        visit.leave();
        expect("a visit that was left", !visit && gate.shut_wait_for(std::chrono::hours(1)));
    }
    expect("a gate that was closed", error_of([&] { gate.shut_wait(); }) == EINVAL);
    expect("a removal", tree.remove_gated_wait(gate, file) && !tree.remove_gated_wait(gate, file));
    expect("a pass may outlive its node", !first.enter());
}

void visits_that_end()
{
    kernfs::tree tree(8, 8);
    auto edit = tree.edit();
    auto file = edit.create_file(edit.root(), "hot", 0444, 0);
    kernfs::gate gate(edit.hold(file), 2), other(edit.hold(file), 1);
    edit.unlock();
    auto pass = gate.pass(1), its = other.pass(0);
    expect("a callback that throws", throws<std::runtime_error>([&] {
               auto visit = pass.enter();
               throw std::runtime_error("no sensor");
           }));
    expect("its visit was left", bool(pass.enter()));
    other = std::move(gate); // each gate goes with its pass
    expect("a gate that was moved", other.pass(0).enter() && pass.enter() && its.enter());
    { kernfs::gate last(std::move(gate)); }
    expect("the other was shut by its destructor", !its.enter() && pass.enter());
    expect("a removal through the first", tree.remove_gated_wait(other, file) && !pass.enter());
}

/* The destructor of a gate waits for the thread that is inside. */
void gate_that_goes()
{
    kernfs::tree tree(8, 8);
    auto edit = tree.edit();
    auto file = edit.create_file(edit.root(), "hot", 0444, 0);
    auto gate = std::make_unique<kernfs::gate>(edit.hold(file), 2);
    edit.unlock();
    std::atomic<bool> is_inside{false}, may_leave{false}, has_left{false}, was_left{false};
    auto own = gate->pass(0), look = gate->pass(1);
    std::thread user([&] {
        auto visit = own.enter();
        is_inside = bool(visit);
        while (!may_leave)
            std::this_thread::yield();
        has_left = true;
    });
    while (!is_inside)
        std::this_thread::yield();
    std::thread closer([&] {
        gate.reset();
        was_left = has_left.load();
    });
    while (look.enter())
        std::this_thread::yield();
    may_leave = true;
    user.join();
    closer.join();
    expect("the gate waits for a visit", was_left);
    expect("a removal without it", tree.remove_wait(file));
}

/* A removal that sleeps is woken by the end of a visit, and by the destructor of a gate. */
template <class Remove, class End> void removal_that_sleeps(const char *what, Remove &&remove, End &&end)
{
    kernfs::tree tree(8, 8);
    auto edit = tree.edit();
    auto file = edit.create_file(edit.root(), "hot", 0444, 0);
    auto gate = std::make_unique<kernfs::gate>(edit.hold(file), 2);
    edit.unlock();
    auto pass = gate->pass(0);
    std::atomic<bool> is_removed{false};
    auto visit = pass.enter();
    std::thread remover([&] { is_removed = remove(tree, *gate, file); });
    while (!tree.edit().stat(file).doomed) // once it is, the remover sleeps
        std::this_thread::yield();
    end(gate, visit);
    remover.join();
    expect(what, is_removed);
}

void removals_that_sleep()
{
    removal_that_sleeps(
        "a removal until the end of a visit",
        [](auto &tree, auto &gate, auto file) { return tree.remove_gated_wait(gate, file); },
        [](auto &, auto &visit) { visit.leave(); });
    removal_that_sleeps(
        "a removal until the end of a gate", [](auto &tree, auto &, auto file) { return tree.remove_wait(file); },
        [](auto &gate, auto &visit) {
            visit.leave();
            gate.reset();
        });
}

} // namespace

int main()
{
    alarm(300);
    names_and_keys();
    editors_and_waits();
    files_and_posts();
    removal_under_load();
    odd_limits();
    holds_of_two_trees();
    gates_and_passes();
    visits_that_end();
    gate_that_goes();
    removals_that_sleep();
    std::cout << passed << " passed, " << failed << " failed\n";
    return failed != 0;
}
