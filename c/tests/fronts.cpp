/* SPDX-License-Identifier: MIT OR Apache-2.0 */
/* The calls of kt_live.hpp beside publishing: open files, which thread is inside, unpublishing with a time limit, objects
 * of plug-ins, functions that run on an object, and callbacks that take each other's object. Prints a line for each
 * that is wrong. */
#include <atomic>
#include <condition_variable>
#include <iostream>
#include <kt_live.hpp>
#include <mutex>
#include <sys/wait.h>
#include <thread>
#include <unistd.h>

namespace {

int wrong;
void check(bool is_right, const char *what)
{
    if (!is_right)
        std::cout << "wrong: " << what << "\n", ++wrong;
}

/* A callback stays inside the gate until the test opens it. */
class gate {
public:
    void pass()
    {
        std::unique_lock<std::mutex> lock(mutex_);
        is_inside_ = true;
        changed_.notify_all();
        changed_.wait(lock, [this] { return is_open_; });
    }
    void wait_for_a_thread()
    {
        std::unique_lock<std::mutex> lock(mutex_);
        changed_.wait(lock, [this] { return is_inside_; });
    }
    void open()
    {
        std::lock_guard<std::mutex> lock(mutex_);
        is_open_ = true;
        changed_.notify_all();
    }

private:
    std::mutex mutex_;
    std::condition_variable changed_;
    bool is_inside_ = false, is_open_ = false;
};

struct fan {
    kernfs::live &live;
    gate &door;
    std::atomic<int> &deleted;
    std::string target_ = "0";
    fan(kernfs::live &tree, gate &it, std::atomic<int> &count) : live(tree), door(it), deleted(count) {}
    fan(const fan &) = delete;
    fan &operator=(const fan &) = delete;
    ~fan() { ++deleted; }
    std::string target() const { return target_; }
    void set_target(std::string_view text) { target_ = text; }
    std::string slow() const
    {
        door.pass();
        return "slow";
    }
    void end(std::string_view)
    {
        check(live.unpublish_self(), "a plug-in's object unpublishes itself");
        check(deleted == 0, "it is not deleted in its callback");
    }
};
const kernfs::attributes<fan> fans = {kernfs::both<&fan::target, &fan::set_target>("target"),
                                      kernfs::shows<&fan::slow>("slow"), kernfs::stores<&fan::end>("end")};

void files(kernfs::live &live)
{
    gate door;
    std::atomic<int> deleted{0};
    auto one = live.publish("/fan", std::make_unique<fan>(live, door, deleted), fans);
    auto target = live.open("/fan/target", true, true);
    check(target && !live.open("/fan/none", true, false), "open");
    check(target->changed() && target->read() == "0" && !target->changed(), "a file is unchanged once it was read");
    check(target->write("900") == 3u && target->read() == "900", "an open file is written and read");
    live.notify(one.key(), "target");
    check(target->changed(), "a notify changes it");
    try {
        live.open("/fan/end", true, false);
        check(false, "a file that nobody may read is opened");
    } catch (const kernfs::error &error) {
        check(error.number() == EACCES, "the error of open");
    }
    one = {};
    check(deleted == 1 && target->changed() && !target->write("1"), "an open file whose object is gone");
}

void runs(kernfs::live &live)
{
    gate door;
    std::atomic<int> deleted{0};
    auto one = live.publish("/fan", std::make_unique<fan>(live, door, deleted), fans);
    auto bus = live.publish("/bus");
    std::string seen;
    check(live.run<fan>("/fan", [&](fan &it) { seen = it.target(); }) && seen == "0", "run");
    auto never = [](fan &) { check(false, "it ran without an object"); };
    check(!live.run<fan>("/none", never) && !live.run<fan>("/bus", never), "run without an object");
    try {
        live.run<fan>("/fan", [](fan &) { throw std::runtime_error("out"); });
        check(false, "an exception is lost");
    } catch (const std::runtime_error &error) {
        check(error.what() == std::string("out"), "another exception");
    }
    auto nothing = live.publish("/other");
    check(nothing.take_for(std::chrono::milliseconds(1)) && !nothing && deleted == 0, "a plain directory");
}

/* A thread is inside while the object is to be unpublished. */
void limits(kernfs::live &live)
{
    gate door;
    std::atomic<int> deleted{0}, warned{0};
    auto one = live.publish("/fan", std::make_unique<fan>(live, door, deleted), fans);
    std::thread reader([&] { check(live.read("/fan/slow") == "slow", "a read that began before"); });
    door.wait_for_a_thread();
    std::FILE *out = std::tmpfile();
    check(out && live.inside("/", out) == 1 && std::ftell(out) > 0, "one thread is inside");
    if (out)
        std::fclose(out);
    live.warn(std::chrono::milliseconds(1), [&](const char *text) {
        ++warned;
        check(std::string_view(text).find("a show is inside") != std::string_view::npos, "the text of a warning");
    });
    while (!warned)
        check(!one.take_for(std::chrono::milliseconds(20)) && one && deleted == 0, "a time limit");
    warned = 0;
    live.warn(std::chrono::milliseconds((1LL << 32) + 1), [&](const char *) { ++warned; }); // some 49 days
    check(!one.take_for(std::chrono::milliseconds(20)) && !warned, "a long time until a warning");
    live.warn(std::chrono::milliseconds(-1));
    check(!one.take_for(std::chrono::milliseconds(-1)) && one, "a time limit below 0");
    live.warn(std::chrono::milliseconds(0));
    check(!live.read("/fan/target"), "nobody can enter");
    door.open();
    auto taken = one.take_for(std::chrono::hours(1));
    check(taken && !one && deleted == 0, "it ends once nobody is inside");
    reader.join();
}

void plugins(kernfs::live &live)
{
    gate door;
    std::atomic<int> deleted{0};
    int released = 0;
    auto release = [&] {
        check(deleted == 1, "the object is deleted before its plug-in is closed");
        ++released;
    };
    {
        auto one = live.publish_plugin("/fan", std::make_unique<fan>(live, door, deleted), fans, release);
        auto second = std::make_unique<fan>(live, door, deleted);
        try {
            auto never = live.publish_plugin("/fan", std::move(second), fans, [] { check(false, "never published"); });
            check(false, "two objects have one path");
        } catch (const kernfs::error &error) {
            check(error.number() == EEXIST && second && released == 0, "the caller keeps what was refused");
        }
        check(live.write("/fan/end", "1") == 1u && released == 1, "released at the end of the host's call");
        deleted = 0;
    }
    deleted = 0;
    auto other = live.publish_plugin("/fan", std::make_unique<fan>(live, door, deleted), fans, release);
    check(other.take() && released == 2 && deleted == 1, "released by its owner");
    decltype(other) owner;
    owner = live.publish_plugin("/fan", std::make_unique<fan>(live, door, deleted), fans, [&] {
        owner = live.publish_plugin("/fan", std::make_unique<fan>(live, door, deleted), fans, [] {});
    });
    check(owner.take() && owner, "the release has published the next one with the same owner");
    check(owner.take() && !owner, "which owns it");
    auto gone = std::make_unique<decltype(other)>();
    *gone = live.publish_plugin("/fan", std::make_unique<fan>(live, door, deleted), fans, [&] { gone.reset(); });
    check(gone->take() && !gone, "the release has destroyed the owner");
}

/* An object whose callback takes or destroys another one, once a callback is in both. */
struct rival {
    std::atomic<int> &inside, &deleted;
    kernfs::published<rival> &other;
    bool destroys;
    rival(std::atomic<int> &in, std::atomic<int> &count, kernfs::published<rival> &owner, bool is_last)
        : inside(in), deleted(count), other(owner), destroys(is_last) {}
    rival(const rival &) = delete;
    ~rival() { ++deleted; }
    void end(std::string_view)
    {
        ++inside;
        while (inside < 2)
            std::this_thread::yield();
        if (destroys)
            other = {};
        else
            other.take();
    }
};
const kernfs::attributes<rival> rivals = {kernfs::stores<&rival::end>("end")};

/* Of two such objects one is deleted, and the owner of the other one still has it. */
void circle(kernfs::live &live, bool destroys)
{
    std::atomic<int> inside{0}, deleted{0};
    kernfs::published<rival> owners[2];
    for (int i = 0; i < 2; i++)
        owners[i] = live.publish(i ? "/b" : "/a",
                                 std::make_unique<rival>(inside, deleted, owners[1 - i], destroys), rivals);
    std::thread one([&] { check(live.write("/a/end", "1") == 1u, "the first callback of a circle"); });
    check(live.write("/b/end", "1") == 1u, "the second callback of a circle");
    one.join();
    check(deleted == 1 && bool(owners[0]) != bool(owners[1]), "one of a circle is left");
    kernfs::published<rival> &left = owners[0] ? owners[0] : owners[1];
    check(!live.write(owners[0] ? "/a/end" : "/b/end", "1"), "nobody can enter what is left");
    check(left.take() && !left, "what is left is taken outside of callbacks");
    check(deleted == 2, "each of a circle is deleted once");
}

/* If an owner is destroyed there, the program ends: a child does, by its own function. */
void circle_of_destructors()
{
    int status = 0;
    pid_t child = fork();
    if (!child) {
        std::set_terminate([] { _exit(3); });
        alarm(300);
        kernfs::live live(64);
        circle(live, true);
        _exit(0);
    }
    check(waitpid(child, &status, 0) == child, "a child");
    check(WIFEXITED(status) && WEXITSTATUS(status) == 3, "a circle of destructors");
}

} // namespace

int main()
{
    alarm(300);
    circle_of_destructors();
    kernfs::live live(64);
    circle(live, false);
    files(live);
    runs(live);
    limits(live);
    plugins(live);
    check(live.list("/").empty(), "everything is unpublished");
    std::cout << wrong << " wrong\n";
    return wrong != 0;
}
