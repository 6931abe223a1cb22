/* SPDX-License-Identifier: MIT OR Apache-2.0 */
/* kt_live.hpp: kt_live.h for C++17. A program publishes objects of its classes as directories, whose attributes are
 * member functions, and takes the objects back while other threads use them. It is tested, not proved.
 *
 *     struct fan { std::string speed() const; void set_target(std::string_view); };
 *     static const kernfs::attributes<fan> fans = {kernfs::shows<&fan::speed>("speed"),
 *                                                  kernfs::stores<&fan::set_target>("target")};
 *     kernfs::live live(1024);
 *     kernfs::published<fan> one = live.publish("/fan0", std::make_unique<fan>(), fans);
 *     std::optional<std::string> text = live.read("/fan0/speed");      // empty if the fan is gone
 *     one = {};                                  // unpublishes it, waits until no thread is in its code, and deletes it
 *
 * If a member function throws, the reader or writer gets an error number: that of a std::system_error, ENOMEM for
 * std::bad_alloc, and EIO for everything else. read() and write() return an empty optional if the node is not there
 * (ENODEV, ENOENT), and throw kernfs::error for every other error. */
#ifndef KT_LIVE_HPP
#define KT_LIVE_HPP

#include <chrono>
#include <cstdio>
#include <cstring>
#include <exception>
#include <functional>
#include <initializer_list>
#include <kernfs_tree.hpp>
#include <kt_live.h>
#include <optional>
#include <type_traits>
#include <vector>

namespace kernfs {

namespace inner {
template <class> struct member;
template <class T, class R, class... A> struct member<R (T::*)(A...)> { using of = T; };
template <class T, class R, class... A> struct member<R (T::*)(A...) const> { using of = T; };

/* Runs a member function inside a callback of C, which no exception may leave. */
template <class Body> std::int64_t guarded(Body &&body) noexcept
{
    try {
        return body();
    } catch (const std::system_error &thrown) {
        const auto &category = thrown.code().category();
        bool is_errno = category == std::generic_category() || category == std::system_category();
        return is_errno && thrown.code().value() > 0 ? -thrown.code().value() : -EIO;
    } catch (const std::bad_alloc &) {
        return -ENOMEM;
    } catch (...) {
        return -EIO;
    }
}
template <auto Show> std::int64_t show(void *device, const kt_attribute *, char *page)
{
    return guarded([&] {
        const auto &text = (static_cast<typename member<decltype(Show)>::of *>(device)->*Show)();
        std::string_view shown(text);
        std::size_t length = shown.size() < KT_PAGE_SIZE ? shown.size() : KT_PAGE_SIZE;
        std::memcpy(page, shown.data(), length);
        return static_cast<std::int64_t>(length);
    });
}
template <auto Store> std::int64_t store(void *device, const kt_attribute *, const char *bytes, std::size_t length)
{
    return guarded([&] {
        (static_cast<typename member<decltype(Store)>::of *>(device)->*Store)(std::string_view(bytes, length));
        return static_cast<std::int64_t>(length);
    });
}
/* Returns what a step of an unpublishing returns. It repeats the step while memory or a hold is missing, because the
 * object cannot stay. */
template <class Step> std::int32_t unpublished(Step &&step) noexcept
{
    std::int32_t result;
    while ((result = step()) == -ENOMEM || result == -EMFILE)
        ::poll(nullptr, 0, 10);
    return result;
}
/* Unpublishes a device, and returns whether this call was the first to do so. */
inline bool unpublish(kt_live *live, kt_key key) noexcept
{
    return unpublished([&] { return kt_live_unpublish(live, key); }) == 1;
}
inline bool is_gone(std::int64_t result) { return result == -ENODEV || result == -ENOENT; }
} // namespace inner

/* An attribute of a class: its name, which must live as long as the list of attributes, and its member functions. */
template <class T> struct attribute : kt_attribute {};

template <auto Show> constexpr auto shows(const char *name, std::uint16_t mode = 0444)
{
    return attribute<typename inner::member<decltype(Show)>::of>{{name, mode, inner::show<Show>, nullptr, 0}};
}
template <auto Store> constexpr auto stores(const char *name, std::uint16_t mode = 0200)
{
    return attribute<typename inner::member<decltype(Store)>::of>{{name, mode, nullptr, inner::store<Store>, 0}};
}
template <auto Show, auto Store> constexpr auto both(const char *name, std::uint16_t mode = 0644)
{
    return attribute<typename inner::member<decltype(Show)>::of>{
        {name, mode, inner::show<Show>, inner::store<Store>, 0}};
}

/* The attributes of a class. The list must outlive what is published with it. */
template <class T> class attributes {
public:
    attributes(std::initializer_list<attribute<T>> list) : list_(list.begin(), list.end()) {}
    const kt_attribute *data() const { return list_.data(); }
    std::size_t size() const { return list_.size(); }

private:
    std::vector<kt_attribute> list_;
};

/* An eventfd that becomes readable when a node changes, comes or goes. The destructor ends the watch. */
class watch {
public:
    watch(watch &&other) noexcept : live_(other.live_), fd_(std::exchange(other.fd_, -1)) {}
    watch &operator=(watch &&other) noexcept
    {
        std::swap(live_, other.live_);
        std::swap(fd_, other.fd_);
        return *this;
    }
    ~watch()
    {
        if (fd_ >= 0)
            kt_live_unwatch(live_, fd_);
    }
    int fd() const noexcept { return fd_; }

private:
    friend class live;
    watch(kt_live *live, int fd) : live_(live), fd_(fd) {}
    kt_live *live_;
    int fd_;
};

/* An open attribute, for one thread that reads or writes it often: no call takes a lock or looks up a path. Its calls
 * return what those of `live` return. Once the object is unpublished, they return an empty optional, for ever. The
 * destructor closes the file, and must not run in the attribute's own callback. */
class open_file {
public:
    open_file(open_file &&other) noexcept : raw_(std::exchange(other.raw_, nullptr)) {}
    open_file &operator=(open_file &&other) noexcept
    {
        std::swap(raw_, other.raw_);
        return *this;
    }
    ~open_file()
    {
        if (raw_ && kt_live_close(raw_))
            std::terminate();
    }
    std::optional<std::string> read()
    {
        std::string out(KT_PAGE_SIZE, '\0');
        std::int64_t length = kt_live_pread(raw_, 0, out.data(), out.size());
        if (inner::is_gone(length))
            return std::nullopt;
        out.resize(static_cast<std::size_t>(must(length)));
        return out;
    }
    std::optional<std::size_t> write(std::string_view bytes)
    {
        std::int64_t taken = kt_live_pwrite(raw_, bytes.data(), bytes.size());
        if (inner::is_gone(taken))
            return std::nullopt;
        return static_cast<std::size_t>(must(taken));
    }
    /* Whether the attribute has changed since the last read(), was never read, or is gone. */
    bool changed() { return must(kt_live_changed(raw_)) == 1; }

private:
    friend class live;
    open_file() = default;
    kt_live_file *raw_ = nullptr;
};

/* The owner of a published object. The destructor unpublishes the object, waits until no thread is in its code, and
 * deletes it, unless another call was first. A callback of the object must not destroy its owner: it calls
 * live::take_self(). If the destructor runs in a callback of another object, and both callbacks would wait for each
 * other (EDEADLK), the program ends, because the object can neither stay nor be deleted. Such a callback calls take()
 * instead. */
template <class T> class published {
public:
    published() = default;
    published(published &&other) noexcept
        : live_(std::exchange(other.live_, nullptr)), key_(other.key_), object_(other.object_) {}
    published &operator=(published &&other) noexcept
    {
        published old(std::move(*this)); // goes at the end of this block
        live_ = std::exchange(other.live_, nullptr);
        key_ = other.key_;
        object_ = other.object_;
        return *this;
    }
    ~published()
    {
        take();
        if (live_)
            std::terminate();
    }
    /* What a call that unpublishes returns: the object; or true, for a plain directory and an object of a plug-in. */
    using taken = std::conditional_t<std::is_void_v<T>, bool, std::unique_ptr<T>>;
    /* Unpublishes the object. Returns it to the first call that does so, once no thread is in its code; otherwise the
     * result is empty, or false. In a callback of another object this may return nothing at once (EDEADLK), because
     * callbacks unpublish each other's object. Then the object is marked and stays so, and nobody can enter. This still
     * owns it (its bool is true), and another take() finishes, after the callback has returned. */
    taken take() noexcept
    {
        return ended([](kt_live *live, kt_key key) { return kt_live_unpublish(live, key); });
    }
    /* The same with a time limit. If somebody is still inside then, this returns nothing, as after EDEADLK, and another
     * take_for() or take() finishes. */
    taken take_for(std::chrono::milliseconds limit) noexcept
    {
        return ended([limit](kt_live *live, kt_key key) {
            return kt_live_unpublish_for(live, key, inner::limit_of(limit), nullptr);
        });
    }
    kt_key key() const noexcept { return key_; }
    explicit operator bool() const noexcept { return live_; }

private:
    friend class live;
    explicit published(T *object) : object_(object) {}
    /* Unpublishes the object by a step. Meanwhile this no longer owns the object, because the release of a plug-in may
     * publish another object here, or destroy this. */
    template <class Step> taken ended(Step &&step) noexcept
    {
        T *object = object_;
        kt_key key = key_;
        kt_live *live = std::exchange(live_, nullptr);
        std::int32_t result = live ? inner::unpublished([&] { return step(live, key); }) : 0;
        if (result == -ETIMEDOUT || result == -EDEADLK)
            live_ = live;
        if constexpr (std::is_void_v<T>)
            return result == 1;
        else
            return taken(result == 1 ? object : nullptr);
    }
    kt_live *live_ = nullptr;
    kt_key key_{};
    T *object_ = nullptr;
};

class live {
public:
    explicit live(std::uint32_t slots) { must(kt_live_new(&raw_, slots)); }
    live(const live &) = delete;
    live &operator=(const live &) = delete;
    /* Everything must be unpublished, nothing may be watched, and no other thread may be in a call. Otherwise the
     * program ends. */
    ~live()
    {
        if (kt_live_delete(raw_))
            std::terminate();
    }

    /* Publishes an object. If this throws, the caller still has the object. */
    template <class T>
    [[nodiscard]] published<T> publish(const char *path, std::unique_ptr<T> &&object, const attributes<T> &list)
    {
        published<T> made(object.get());
        must(kt_live_publish(raw_, path, list.data(), list.size(), object.get(), &made.key_));
        (void)object.release();
        made.live_ = raw_;
        return made;
    }
    /* Publishes an object of a plug-in. Once it is unpublished and none of its callbacks is on any stack, the object is
     * deleted, and then `release` runs, once: it may dlclose() the plug-in. `release` must not throw. This call must be
     * compiled into the host. So T is a class of the host, and the object is of a class of the plug-in that is derived
     * from T. */
    template <class T>
    [[nodiscard]] published<void> publish_plugin(const char *path, std::unique_ptr<T> &&object,
                                                 const attributes<T> &list, std::function<void()> release)
    {
        published<void> made(nullptr);
        auto kept = std::make_unique<plugin<T>>(plugin<T>{std::move(object), std::move(release)});
        std::int32_t result = kt_live_publish_plugin(raw_, path, list.data(), list.size(), kept->object.get(),
                                                     plugin<T>::end, kept.get(), &made.key_);
        if (result)
            object = std::move(kept->object);
        else
            (void)kept.release();
        must(result);
        made.live_ = raw_;
        return made;
    }
    /* Publishes a plain directory, in which others can be published. */
    [[nodiscard]] published<void> publish(const char *path)
    {
        published<void> made(nullptr);
        must(kt_live_publish(raw_, path, nullptr, 0, nullptr, &made.key_));
        made.live_ = raw_;
        return made;
    }
    /* Unpublishes an object in one of its callbacks; `self` is the object. The first call gets the object, once no
     * other thread is in its code, and may delete it. The code itself must stay mapped, because this returns into it.
     * After EDEADLK this returns nothing, and the owner of the object still has it. */
    template <class T> std::unique_ptr<T> take_self(T *self)
    {
        return std::unique_ptr<T>(inner::unpublish(raw_, kt_live_self(raw_)) ? self : nullptr);
    }
    /* The same for an object of publish_plugin(), which deletes the object once its callbacks have returned. */
    bool unpublish_self() noexcept { return inner::unpublish(raw_, kt_live_self(raw_)); }
    kt_key self() { return kt_live_self(raw_); }
    /* Runs a function on the object at a path, which must be a T: the object exists until the function returns. Returns
     * whether the function ran; it does not if no object is there. What the function throws, this throws. */
    template <class T, class Body> bool run(const char *path, Body &&body)
    {
        running<T, Body> it{body, nullptr};
        std::int64_t result = kt_live_run(raw_, path, it.call, &it);
        if (it.thrown)
            std::rethrow_exception(it.thrown);
        return !inner::is_gone(result) && must(result) == 0;
    }

    std::optional<std::string> read(const char *path)
    {
        std::string out(KT_PAGE_SIZE, '\0');
        std::int64_t length = kt_live_read(raw_, path, out.data(), out.size());
        if (is_gone(length))
            return std::nullopt;
        out.resize(static_cast<std::size_t>(must(length)));
        return out;
    }
    std::optional<std::size_t> write(const char *path, std::string_view bytes)
    {
        std::int64_t taken = kt_live_write(raw_, path, bytes.data(), bytes.size());
        if (is_gone(taken))
            return std::nullopt;
        return static_cast<std::size_t>(must(taken));
    }
    /* Reports that an attribute has changed. It does nothing if the attribute is gone. */
    void notify(kt_key device, const char *name)
    {
        std::int32_t result = kt_live_notify(raw_, device, name);
        if (!is_gone(result))
            must(result);
    }
    /* Opens an attribute. The result is empty if it is not there. */
    std::optional<open_file> open(const char *path, bool reads, bool writes)
    {
        open_file made;
        std::int32_t result = kt_live_open(raw_, path, reads, writes, &made.raw_);
        if (is_gone(result))
            return std::nullopt;
        must(result);
        return made;
    }
    kernfs::watch watch(const char *path) { return kernfs::watch(raw_, static_cast<int>(must(kt_live_watch(raw_, path)))); }
    std::vector<std::string> list(const char *path)
    {
        std::vector<std::string> names;
        kt_child at{};
        while (must(kt_live_list(raw_, path, &at)) == 1)
            names.emplace_back(at.name);
        return names;
    }
    /* Writes a line for each callback and each waiting unpublishing at a path or below it: its thread, and for how long
     * (kt_live_inside()). Returns the number of callbacks. */
    std::int32_t inside(const char *path, std::FILE *out)
    {
        return static_cast<std::int32_t>(must(kt_live_inside(raw_, path, out)));
    }
    /* Makes unpublishings report that they wait. From now on, an unpublishing that has slept for this time calls the
     * function with such lines, and again each time that it has passed. The function must not throw. If it is empty,
     * the lines go to standard error. If the time is 0 milliseconds, the reports end. This must be called while nothing
     * is being unpublished. */
    void warn(std::chrono::milliseconds after, std::function<void(const char *)> function = {})
    {
        warn_ = std::move(function);
        kt_live_warn(raw_, inner::limit_of(after), warn_ ? run_warn : nullptr, this);
    }
    kt_live *get() noexcept { return raw_; }

private:
    /* A function that run() runs, and the exception that it has thrown. */
    template <class T, class Body> struct running {
        Body &body;
        std::exception_ptr thrown;
        static std::int64_t call(void *object, void *data) noexcept
        {
            auto *it = static_cast<running *>(data);
            if (!object)
                return -ENOENT; // a plain directory
            try {
                it->body(*static_cast<T *>(object));
            } catch (...) {
                it->thrown = std::current_exception();
            }
            return 0;
        }
    };
    /* What publish_plugin() keeps until none of the callbacks is on any stack. */
    template <class T> struct plugin {
        std::unique_ptr<T> object;
        std::function<void()> release;
        static void end(void *data) noexcept
        {
            std::unique_ptr<plugin> kept(static_cast<plugin *>(data));
            kept->object.reset();
            kept->release();
        }
    };
    static void run_warn(const char *text, void *data) noexcept { static_cast<live *>(data)->warn_(text); }
    static bool is_gone(std::int64_t result) { return inner::is_gone(result); }
    kt_live *raw_ = nullptr;
    std::function<void(const char *)> warn_;
};

} // namespace kernfs

#endif /* KT_LIVE_HPP */
