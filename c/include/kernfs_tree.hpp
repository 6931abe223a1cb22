/* SPDX-License-Identifier: MIT OR Apache-2.0 */
/* kernfs_tree.hpp: the calls of kernfs_tree.h for C++17, in one header over the C library. It is tested, not proved.
 *
 *     kernfs::tree tree(64, 64);
 *     auto edit = tree.edit();                                 // the tree's lock, as long as this exists
 *     auto fan = edit.create_dir(edit.root(), "fan0", false);
 *     auto speed = edit.create_file(fan, "speed", 0444, 0, false);
 *     edit.activate(fan);
 *     auto hold = edit.hold(speed);
 *     edit.unlock();
 *     if (auto call = hold.enter())                            // takes no lock; empty once the fan is removed
 *         show_speed();                                        // the call is left at the end, also by an exception
 *     tree.remove_wait(fan);                                   // no callback runs there, and none ever starts
 *
 * - Each class owns its handle, and can be moved but not copied. Only one thread at a time uses a hold, a file, a post,
 *   a gate or a pass.
 * - A call that fails throws kernfs::error, a std::system_error with the library's error number in generic_category().
 *   Two cases are not errors: if the node is not live, hold::enter() returns an empty call; and if the gate is shut,
 *   pass::enter() returns an empty visit.
 * - Calls on a tree are made by an `editor`, so they are never made without the lock. A thread that has an editor may
 *   enter and leave, and drop holds. If it waits (tree::remove_wait(), gate::shut_wait() and so on) or asks for a
 *   second editor, it would wait for itself: then std::logic_error is thrown.
 * - A time limit below 0 counts as 0, and the largest one is about 49 days.
 * - A tree must outlive the calls that run in it. Its holds, files, gates and passes may outlive it. */
#ifndef KERNFS_TREE_HPP
#define KERNFS_TREE_HPP

#include <algorithm>
#include <atomic>
#include <cassert>
#include <chrono>
#include <climits>
#include <functional>
#include <kernfs_tree.h>
#include <memory>
#include <mutex>
#include <optional>
#include <stdexcept>
#include <string>
#include <string_view>
#include <system_error>
#include <thread>
#include <utility>

namespace kernfs {

class error : public std::system_error {
public:
    explicit error(std::int64_t result)
        : std::system_error(static_cast<int>(-result), std::generic_category(), kt_strerror(result)) {}
    int number() const noexcept { return code().value(); }
};

/* Returns a result of the C library, or throws the exception for it. */
inline std::int64_t must(std::int64_t result)
{
    if (result < 0)
        throw error(result);
    return result;
}

using key = kt_key;
using node_info = struct kt_node_info;

namespace inner {
/* Converts a time limit for C. */
inline unsigned limit_of(std::chrono::milliseconds limit) noexcept
{
    return static_cast<unsigned>(std::clamp<std::chrono::milliseconds::rep>(limit.count(), 0, UINT_MAX));
}
} // namespace inner

/* Owns a handle, from kt_new() to kt_delete(). */
class handle {
public:
    handle() { must(kt_new(&raw_.at)); }
    handle(handle &&other) noexcept : raw_{std::exchange(other.raw_.at, nullptr)} {}
    handle &operator=(handle &&other) noexcept
    {
        std::swap(raw_.at, other.raw_.at);
        return *this;
    }
    /* (If a hiding has begun in a tree and has not ended, the tree is not freed: its memory stays until the program
     * ends.) */
    ~handle() { (void)(raw_.at && kt_delete(raw_)); }
    kt_handle *get() noexcept { return &raw_; }
    explicit operator bool() const noexcept { return raw_.at; }

private:
    kt_handle raw_{nullptr};
};

/* The lock of a tree, on which its removals and hidings and the shutting of its gates wait. It knows which thread has
 * it. */
class tree_lock {
public:
    tree_lock() { must(kt_lock_init(&raw_)); }
    tree_lock(const tree_lock &) = delete;
    ~tree_lock() { kt_lock_destroy(&raw_); }
    void lock()
    {
        pthread_mutex_lock(&unowned()->mutex);
        owner_.store(std::this_thread::get_id(), std::memory_order_relaxed);
    }
    void unlock()
    {
        owner_.store(std::thread::id(), std::memory_order_relaxed);
        pthread_mutex_unlock(&raw_.mutex);
    }
    /* For a call that takes the lock itself and may sleep. Throws if this thread has the lock. */
    kt_lock *unowned()
    {
        if (is_mine())
            throw std::logic_error("this thread has an editor of the tree: it would wait for itself");
        return &raw_;
    }
    /* Wakes the threads that wait in a removal, a hiding or the shutting of a gate. It may be called with the lock or
     * without it. */
    void wake() noexcept
    {
        if (is_mine())
            pthread_cond_broadcast(&raw_.left);
        else
            kt_wake(&raw_);
    }

private:
    bool is_mine() const noexcept { return owner_.load(std::memory_order_relaxed) == std::this_thread::get_id(); }
    kt_lock raw_;
    std::atomic<std::thread::id> owner_{};
};

/* What a callback runs under. The destructor leaves. A call is empty if the node could not be entered. */
class call {
public:
    call() = default;
    call(call &&other) noexcept : raw_(std::exchange(other.raw_, nullptr)), lock_(other.lock_) {}
    ~call() { leave(); }
    explicit operator bool() const noexcept { return raw_; }
    void leave() noexcept
    {
        if (raw_ && kt_leave(std::exchange(raw_, nullptr)) == 1)
            lock_->wake();
    }

    /* While this exists, a removal does not wait for the call. It is for code that would wait for the removal. */
    class broken {
    public:
        explicit broken(call &of) : of_(of)
        {
            if (must(kt_break(of.raw_)) == 1)
                of.lock_->wake();
        }
        broken(const broken &) = delete;
        ~broken() { kt_restore(of_.raw_); }

    private:
        call &of_;
    };

private:
    friend class hold;
    friend class tree;
    friend class file;
    call(kt_handle *raw, tree_lock *lock) : raw_(raw), lock_(lock) {}
    kt_handle *raw_ = nullptr;
    tree_lock *lock_ = nullptr;
};

/* A hold of a node, which keeps the node's slot from being reused. Only one thread at a time uses it: dup() makes
 * another hold. */
class hold {
public:
    /* Enters before a callback. The call is empty if the node is not live. The hold must not be moved before the call
     * is left. */
    call enter()
    {
        std::int32_t entered = kt_enter(own_.get());
        if (entered == -ENODEV) {
            lock_->wake();
            return {};
        }
        must(entered);
        return call(own_.get(), lock_.get());
    }
    hold dup()
    {
        hold other(lock_);
        std::int32_t made;
        while ((made = kt_dup(own_.get(), other.own_.get())) == -EBUSY)
            std::this_thread::yield();
        must(made);
        return other;
    }
    hold(hold &&) = default;
    hold &operator=(hold &&other) noexcept
    {
        std::swap(lock_, other.lock_);
        std::swap(own_, other.own_);
        return *this;
    }
    ~hold()
    {
        if (own_ && kt_clear(own_.get()) == 1)
            lock_->wake();
    }

protected:
    friend class editor;
    friend class file;
    friend class gate;
    friend class tree;
    explicit hold(std::shared_ptr<tree_lock> lock) : lock_(std::move(lock)) {}
    std::shared_ptr<tree_lock> lock_;
    handle own_;
};

/* An open file: its node, its event counter and the text of its last show. */
class file : public hold {
public:
    /* Returns what `show()` returns, from an offset on. That value must convert to std::string_view. What `show`
     * throws, this throws. */
    template <class Show> std::string read(Show &&show, std::uint64_t offset = 0, std::size_t size = KT_PAGE_SIZE)
    {
        std::int32_t begun = kt_begin_read(own_.get(), offset);
        if (begun == -ENODEV)
            lock_->wake();
        if (must(begun) == 1) {
            call running(own_.get(), lock_.get());
            const auto &text = show();
            std::string_view shown(text);
            must(kt_shown(own_.get(), shown.data(), shown.size()));
        }
        std::string out(size, '\0');
        out.resize(static_cast<std::size_t>(must(kt_copy(own_.get(), offset, out.data(), size))));
        return out;
    }
    /* Returns what `store(bytes)` returns, for at most a page of bytes. Without any byte it returns 0, and `store` does
     * not run. */
    template <class Store> std::size_t write(std::string_view bytes, Store &&store)
    {
        std::int32_t begun = kt_begin_write(own_.get());
        if (begun == -ENODEV)
            lock_->wake();
        must(begun);
        call running(own_.get(), lock_.get());
        return bytes.empty() ? 0 : static_cast<std::size_t>(store(bytes.substr(0, KT_PAGE_SIZE)));
    }
    /* Whether the file has changed since its last read, was never read, or is not live. */
    bool poll()
    {
        call running = enter();
        return !running || must(kt_changed(own_.get())) == 1;
    }

private:
    friend class editor;
    using hold::hold;
};

/* What a callback by a pass runs under. The destructor leaves. A visit is empty if the gate is shut. */
class visit {
public:
    visit() = default;
    visit(visit &&other) noexcept : raw_(std::exchange(other.raw_, nullptr)), lock_(other.lock_) {}
    ~visit() { leave(); }
    explicit operator bool() const noexcept { return raw_; }
    void leave() noexcept
    {
        if (raw_ && kt_pass_leave(std::exchange(raw_, nullptr)) == 1)
            lock_->wake();
    }

private:
    friend class pass;
    visit(kt_handle *raw, tree_lock *lock) : raw_(raw), lock_(lock) {}
    kt_handle *raw_ = nullptr;
    tree_lock *lock_ = nullptr;
};

/* A thread's way through a gate, by one of its lanes. It may outlive the gate. */
class pass {
public:
    /* Goes inside before a callback. The visit is empty if the gate is shut. The pass must not be moved before the
     * visit is left. */
    visit enter()
    {
        std::int32_t entered = kt_pass_enter(own_.get());
        if (entered == -ENODEV) {
            lock_->wake();
            return {};
        }
        must(entered);
        return visit(own_.get(), lock_.get());
    }
    /* Makes a pass for another thread, by the lane with this number, modulo the number of lanes. */
    pass another(std::uint32_t lane)
    {
        pass other(lock_);
        must(kt_pass(own_.get(), lane, other.own_.get()));
        return other;
    }

private:
    friend class gate;
    explicit pass(std::shared_ptr<tree_lock> lock) : lock_(std::move(lock)) {}
    std::shared_ptr<tree_lock> lock_;
    handle own_;
};

/* A gate of a node, for an object that many threads call. Each thread goes through the gate by its own pass. While the
 * gate is open, a removal or a hiding of the node waits; tree::remove_gated_wait() shuts the gate and removes the node.
 * The destructor shuts the gate and waits until nobody is inside. If somebody is inside, and this thread has an editor,
 * the program ends, because it would wait for itself. */
class gate {
public:
    /* Makes a gate of a hold. If this throws (for example ENODEV, because the node is not live), the caller still has
     * the hold. */
    gate(hold &&of, std::uint32_t lanes) : first_(of.lock_), hold_(of.lock_)
    {
        std::int32_t made = kt_gate(of.own_.get(), lanes, first_.own_.get());
        if (made == -ENODEV || made == -ENOMEM)
            of.lock_->wake();
        must(made);
        hold_ = std::move(of);
    }
    gate(gate &&) = default;
    gate &operator=(gate &&other) noexcept
    {
        std::swap(first_, other.first_);
        hold_ = std::move(other.hold_);
        return *this;
    }
    ~gate()
    {
        int before = 0;
        if (!hold_.own_ || ended(kt_shut(hold_.own_.get())) != -EAGAIN)
            return;
        pthread_setcancelstate(PTHREAD_CANCEL_DISABLE, &before); /* nothing may leave a destructor early */
        (void)!kt_shut_wait(hold_.own_.get(), hold_.lock_->unowned());
        pthread_setcancelstate(before, nullptr);
    }
    /* Makes a pass by the lane with this number, modulo the number of lanes. */
    kernfs::pass pass(std::uint32_t lane) { return first_.another(lane); }
    /* Shuts the gate, and waits until nobody is inside. Nobody ever enters again by a pass of the gate. If it was shut
     * and closed before, this fails with EINVAL. */
    void shut_wait() { must(kt_shut_wait(hold_.own_.get(), hold_.lock_->unowned())); }
    /* The same with a time limit. Returns false if somebody is still inside: the gate stays shut, and the caller calls
     * again. */
    bool shut_wait_for(std::chrono::milliseconds limit)
    {
        auto shut = kt_shut_wait_for(hold_.own_.get(), hold_.lock_->unowned(), inner::limit_of(limit));
        return shut != -ETIMEDOUT && must(shut) == 0;
    }

private:
    friend class tree;
    /* Returns the result of a kt_shut(), with the wake that is due after it. */
    std::int32_t ended(std::int32_t result) noexcept
    {
        if (result == 1)
            hold_.lock_->wake();
        return result;
    }
    kernfs::pass first_; /* by lane 0; it makes the others, and is never inside */
    hold hold_;
};

/* Reads and raises the event counter of a node's slot. */
class post {
public:
    void notify() { must(kt_notify(own_.get())); }
    std::uint64_t event()
    {
        std::uint64_t number = 0;
        must(kt_event(own_.get(), &number));
        return number;
    }

private:
    friend class editor;
    handle own_;
};

/* The tree's lock, and the calls that are made under it. Each throws the errors that kernfs_tree.h documents for it. */
class editor {
public:
    editor(editor &&) = default;
    editor &operator=(editor &&) = default;
    void lock() { guard_.lock(); }
    void unlock() { guard_.unlock(); }
    kernfs::key root() { return made([&](key *out) { return kt_root(at(), out); }); }
    key create_dir(key parent, std::string_view name, bool live = true)
    {
        return made([&](key *out) { return kt_create_dir(at(), parent, name.data(), name.size(), live, out); });
    }
    key create_file(key parent, std::string_view name, std::uint16_t mode, std::uint64_t tag, bool live = true)
    {
        return made(
            [&](key *out) { return kt_create_file(at(), parent, name.data(), name.size(), mode, tag, live, out); });
    }
    key create_link(key parent, std::string_view name, key target, bool live = true)
    {
        return made([&](key *out) { return kt_create_link(at(), parent, name.data(), name.size(), target, live, out); });
    }
    void activate(key of) { must(kt_activate(at(), of)); }
    void rename(key of, key dir, std::string_view name) { must(kt_rename(at(), of, dir, name.data(), name.size())); }
    key find(key dir, std::string_view name)
    {
        return made([&](key *out) { return kt_find(at(), dir, name.data(), name.size(), out); });
    }
    key walk(std::string_view path)
    {
        return made([&](key *out) { return kt_walk(at(), path.data(), path.size(), out); });
    }
    node_info stat(key of)
    {
        node_info out{};
        must(kt_stat(at(), of, &out));
        return out;
    }
    key parent(key of) { return made([&](key *out) { return kt_parent(at(), of, out); }); }
    std::string name(key of) { return text(KT_NAME_MAX, of, kt_name); }
    std::string path(key of) { return text(KT_PAGE_SIZE, of, kt_path); }
    std::string readlink(key of) { return text(KT_PAGE_SIZE, of, kt_readlink); }
    /* Finds the next live child after `child`, whose name is empty at first. Returns false if there is no other
     * child. */
    bool next(key dir, kt_child &child) { return must(kt_list(at(), dir, &child)) == 1; }
    /* Marks a node and everything below it, and returns whether this call is the first to claim the node's removal. */
    bool claim(key of) { return must(kt_claim(at(), of)) == 0; }
    /* Compacts the tree's log if it has at least 1,000 more than twice as many commands as kt_compact() leaves at
     * most. */
    void tidy()
    {
        struct kt_command_counts counts = {0, 0};
        must(kt_commands(at(), &counts));
        if (counts.stored >= 2 * counts.compacted + 1000)
            must(kt_compact(at()));
    }

    kernfs::hold hold(key of)
    {
        return opened(kernfs::hold(lock_), [&](kt_handle *out) { return kt_hold(at(), of, out); });
    }
    kernfs::file open(key of, bool read, bool write)
    {
        return opened(kernfs::file(lock_), [&](kt_handle *out) { return kt_open(at(), of, read, write, out); });
    }
    kernfs::post post(key of)
    {
        return opened(kernfs::post(), [&](kt_handle *out) { return kt_event_open(at(), of, out); });
    }

private:
    friend class tree;
    editor(kt_handle *tree, std::shared_ptr<tree_lock> lock) : tree_(tree), lock_(std::move(lock)), guard_(*lock_) {}
    kt_handle *at()
    {
        assert(guard_.owns_lock());
        return tree_;
    }
    template <class Call> key made(Call &&makes)
    {
        key out{};
        must(makes(&out));
        return out;
    }
    template <class Made, class Call> Made opened(Made out, Call &&opens)
    {
        must(opens(out.own_.get()));
        return out;
    }
    template <class Call> std::string text(std::size_t size, key of, Call *writes)
    {
        for (;; size *= 4) {
            std::string out(size, '\0');
            std::int64_t length = writes(at(), of, out.data(), size);
            if (length == -ERANGE)
                continue;
            out.resize(static_cast<std::size_t>(must(length)));
            return out;
        }
    }
    kt_handle *tree_;
    std::shared_ptr<tree_lock> lock_;
    std::unique_lock<tree_lock> guard_;
};

class tree {
public:
    /* `slots` is the maximum number of nodes at once, including the root and nodes that are gone but still held.
     * `holds` is the maximum number of holds of one node. */
    tree(std::uint32_t slots, std::uint32_t holds) : lock_(std::make_shared<tree_lock>())
    {
        must(kt_create_root(own_.get(), slots, holds));
    }
    [[nodiscard]] editor edit() { return editor(own_.get(), lock_); }

    /* Removes a node and everything below it, and waits until no callback runs there. Returns true if this call took
     * the node out. (If a callback calls remove_self_wait() meanwhile, that call may return true too, or instead:
     * editor::claim() says which thread frees.) */
    bool remove_wait(key of) { return must(kt_remove_wait(own_.get(), of, lock_->unowned())) == 1; }
    /* The same with a time limit. The result is empty if somebody is still inside: everything stays marked, and the
     * caller calls again. Otherwise the node is out, and the value is what remove_wait() returns. */
    std::optional<bool> remove_wait_for(key of, std::chrono::milliseconds limit)
    {
        return limited(kt_remove_wait_for(own_.get(), of, lock_->unowned(), inner::limit_of(limit)));
    }
    /* Removes the node of a gate and everything below it, shuts the gate, and waits until nobody is inside. */
    bool remove_gated_wait(gate &of, key its)
    {
        return must(kt_remove_gated_wait(own_.get(), of.hold_.own_.get(), its, lock_->unowned())) == 1;
    }
    /* The same with a time limit, like remove_wait_for(). The gate stays shut. */
    std::optional<bool> remove_gated_wait_for(gate &of, key its, std::chrono::milliseconds limit)
    {
        return limited(kt_remove_gated_wait_for(own_.get(), of.hold_.own_.get(), its, lock_->unowned(),
                                                inner::limit_of(limit)));
    }
    /* Removes a call's node, or one above it, from inside. Returns true to the first call that does so. */
    bool remove_self_wait(call &inside, key of)
    {
        return must(kt_remove_self_wait(own_.get(), inside.raw_, of, lock_->unowned())) == 1;
    }
    void hide_wait(key of) { must(kt_hide_wait(own_.get(), of, lock_->unowned())); }
    void unhide_wait(key of) { must(kt_unhide_wait(own_.get(), of, lock_->unowned())); }

private:
    static std::optional<bool> limited(std::int32_t removed)
    {
        if (removed == -ETIMEDOUT)
            return std::nullopt;
        return must(removed) == 1;
    }
    std::shared_ptr<tree_lock> lock_;
    handle own_;
};

} // namespace kernfs

inline bool operator==(kt_key a, kt_key b) noexcept { return a.slot == b.slot && a.generation == b.generation; }
inline bool operator!=(kt_key a, kt_key b) noexcept { return !(a == b); }
template <> struct std::hash<kt_key> {
    std::size_t operator()(kt_key of) const noexcept
    {
        return std::hash<std::uint64_t>()(std::uint64_t{of.slot} << 32 | of.generation);
    }
};

#endif /* KERNFS_TREE_HPP */
