/* SPDX-License-Identifier: MIT OR Apache-2.0 */
/* A service in C++17: channels come and go while clients read and set them by their paths (kt_live.hpp). A channel
 * closes itself when a client writes to its `close`, and a monitor watches one. With a number: so many channels. */
#include <atomic>
#include <iostream>
#include <kt_live.hpp>
#include <thread>

namespace {

struct counts {
    std::atomic<long> deleted{0}, closed{0}, reads{0}, writes{0}, gone{0}, wrong{0}, woken{0};
} seen;

class channel {
public:
    explicit channel(kernfs::live &live) : live_(live) {}
    channel(const channel &) = delete;
    channel &operator=(const channel &) = delete;
    ~channel()
    {
        seen.wrong += inside_.load();
        alive_ = 0;
        ++seen.deleted;
    }
    std::string level() const
    {
        within here(*this);
        return std::to_string(level_.load()) + "\n";
    }
    void set_level(std::string_view text)
    {
        within here(*this);
        level_ = std::stoi(std::string(text)); // if it throws, the writer gets EIO
        live_.notify(live_.self(), "level");
    }
    void close(std::string_view)
    {
        if (auto self = live_.take_self(this)) // no other thread is in here; the object is deleted with `self`
            ++seen.closed;
    }
    void refuse(std::string_view) { throw std::system_error(EPERM, std::generic_category()); }

private:
    struct within {
        const channel &of;
        explicit within(const channel &it) : of(it)
        {
            ++of.inside_;
            seen.wrong += of.alive_ != 0x600d;
        }
        ~within() { --of.inside_; }
    };
    kernfs::live &live_;
    std::atomic<int> level_{0};
    mutable std::atomic<int> inside_{0};
    std::atomic<unsigned> alive_{0x600d};
};

const kernfs::attributes<channel> channel_attributes = {
    kernfs::both<&channel::level, &channel::set_level>("level"),
    kernfs::stores<&channel::close>("close"),
    kernfs::stores<&channel::refuse>("refuse"),
};

void use(kernfs::live &live, const std::string &path, unsigned choice)
{
    if (choice % 50 == 0)
        live.write((path + "/close").c_str(), "1") ? ++seen.writes : ++seen.gone;
    else if (choice % 4 == 0)
        live.write((path + "/level").c_str(), "7") ? ++seen.writes : ++seen.gone;
    else
        live.read((path + "/level").c_str()) ? ++seen.reads : ++seen.gone;
}

void client(kernfs::live &live, const std::atomic<bool> &is_over, unsigned choice)
{
    while (!is_over)
        for (const auto &name : live.list("/channels"))
            use(live, "/channels/" + name, choice++);
}

void monitor(kernfs::live &live, const std::atomic<bool> &is_over)
{
    auto watch = live.watch("/channels/c0/level");
    pollfd at{watch.fd(), POLLIN, 0};
    while (!is_over)
        if (poll(&at, 1, 20) == 1) {
            std::uint64_t times;
            if (read(watch.fd(), &times, sizeof times) == sizeof times)
                ++seen.woken;
            live.read("/channels/c0/level") ? ++seen.reads : ++seen.gone;
        }
}

/* Publishes a channel again and again, and takes it back after some reads. */
void own(kernfs::live &live, int number, int turns)
{
    std::string path = "/channels/c" + std::to_string(number);
    for (int i = 0; i < turns; i++) {
        auto one = live.publish(path.c_str(), std::make_unique<channel>(live), channel_attributes);
        for (long before = seen.reads, k = 0; seen.reads < before + 5 && k < 1000; k++)
            std::this_thread::yield();
    }
}

/* What a member function throws stays in the library's frame. */
void refuses(kernfs::live &live, const char *attribute, int number)
{
    auto one = live.publish("/channels/last", std::make_unique<channel>(live), channel_attributes);
    try {
        live.write((std::string("/channels/last/") + attribute).c_str(), "seven");
        ++seen.wrong;
    } catch (const kernfs::error &error) {
        seen.wrong += error.number() != number;
    }
}

void serve(int turns)
{
    kernfs::live live(256);
    std::atomic<bool> is_over{false};
    std::vector<std::thread> threads;
    auto channels = live.publish("/channels");
    for (unsigned i = 1; i <= 3; i++)
        threads.emplace_back(client, std::ref(live), std::cref(is_over), i);
    threads.emplace_back(monitor, std::ref(live), std::cref(is_over));
    std::thread second(own, std::ref(live), 1, turns / 2);
    own(live, 0, turns / 2);
    second.join();
    is_over = true;
    for (auto &it : threads)
        it.join();
    refuses(live, "level", EIO);
    refuses(live, "refuse", EPERM);
    auto kept = live.publish("/channels/kept", std::make_unique<channel>(live), channel_attributes);
    kept = live.publish("/channels/other", std::make_unique<channel>(live), channel_attributes); // the first is deleted
    seen.wrong += live.list("/channels") != std::vector<std::string>{"other"};
    std::unique_ptr<channel> taken = kept.take();
    seen.wrong += !taken || kept || live.read("/channels/other/level") || !channels.take();
}

} // namespace

int main(int count, char **words)
{
    int turns = count > 1 ? std::atoi(words[1]) : 2000;
    serve(turns);
    std::cout << "channels deleted: " << seen.deleted << ", as many as were published: "
              << (seen.deleted == turns / 2 * 2 + 4 ? "yes" : "no") << "\nreads: " << (seen.reads > 0 ? "some" : "none")
              << "\nwrong: " << seen.wrong << "\n";
    return seen.wrong != 0 || seen.deleted != turns / 2 * 2 + 4 || seen.reads == 0;
}
