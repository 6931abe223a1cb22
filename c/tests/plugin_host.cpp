/* SPDX-License-Identifier: MIT OR Apache-2.0 */
/* The plug-in host of plugin_host.c in C++, over kernfs_tree.hpp:  plugin_host CYCLES PLUGIN.so ..
 *
 * Each thread has a hold of each plug-in's file, so that a call takes no lock. It looks the file up again when the
 * plug-in is gone. The file's tag is the address of the plug-in, which exists during a call. */
#include "plugin.h"
#include <dlfcn.h>
#include <iostream>
#include <kernfs_tree.hpp>
#include <optional>
#include <vector>

namespace {

/* A plug-in: its destructor stops it and unloads its code. */
class plugin {
public:
    explicit plugin(const char *file) : library_(dlopen(file, RTLD_NOW | RTLD_LOCAL))
    {
        if (!library_)
            throw std::runtime_error(dlerror());
        table_ = static_cast<const plugin_table *>(dlsym(library_, "PLUGIN"));
        object_ = table_ ? table_->start() : nullptr;
        if (!object_)
            throw std::runtime_error("the plug-in does not start");
    }
    plugin(const plugin &) = delete;
    plugin &operator=(const plugin &) = delete;
    ~plugin()
    {
        table_->stop(object_);
        dlclose(library_);
    }
    std::int64_t call(std::int64_t by) { return table_->call(object_, by); }

private:
    void *library_, *object_ = nullptr;
    const plugin_table *table_ = nullptr;
};

/* One thread's way to a plug-in that comes and goes. */
class user {
public:
    user(kernfs::tree &tree, std::string path) : tree_(tree), path_(std::move(path)) {}
    bool call(std::int64_t by)
    {
        if (!hold_)
            find();
        if (hold_) {
            if (auto call = hold_->enter()) {
                plugin_->call(by);
                return true;
            }
            hold_.reset();
        }
        return false;
    }

private:
    void find()
    {
        auto edit = tree_.edit();
        try {
            kernfs::key key = edit.walk(path_);
            plugin_ = reinterpret_cast<plugin *>(edit.stat(key).tag); // followed only in a call
            hold_ = edit.hold(key);
        } catch (const kernfs::error &) {
        }
    }
    kernfs::tree &tree_;
    std::string path_;
    plugin *plugin_ = nullptr;
    std::optional<kernfs::hold> hold_;
};

struct host {
    kernfs::tree tree{64, 64};
    std::vector<std::string> files;
    std::atomic<bool> is_over{false};
    std::atomic<long> calls{0}, refused{0}, unmapped{0};

    std::string path(std::size_t which) const { return "/p" + std::to_string(which); }
    void work()
    {
        std::vector<user> users;
        for (std::size_t i = 0; i < files.size(); i++)
            users.emplace_back(tree, path(i));
        while (!is_over)
            for (auto &it : users) {
                if (it.call(1)) {
                    ++calls;
                } else {
                    ++refused;
                    std::this_thread::yield();
                }
            }
    }
    /* Loads a plug-in, publishes it, waits for some calls, removes it and unloads it. */
    void cycle(std::size_t which)
    {
        const char *file = files[which].c_str();
        auto it = std::make_unique<plugin>(file);
        auto edit = tree.edit();
        auto key = edit.create_file(edit.root(), path(which).substr(1), 0444, reinterpret_cast<std::uintptr_t>(it.get()));
        edit.tidy();
        edit.unlock();
        for (long before = calls, i = 0; i < 1000 && calls < before + 20; i++)
            std::this_thread::yield();
        tree.remove_wait(key);
        it.reset(); // no thread is in its code, and none enters
        unmapped += !dlopen(file, RTLD_NOW | RTLD_NOLOAD);
    }
    void run(int cycles)
    {
        std::vector<std::thread> workers, loaders;
        for (int i = 0; i < 3; i++)
            workers.emplace_back([this] { work(); });
        for (std::size_t i = 0; i < files.size(); i++)
            loaders.emplace_back([this, i, cycles] {
                for (int turn = 0; turn < cycles; turn++)
                    cycle(i);
            });
        for (auto &it : loaders)
            it.join();
        is_over = true;
        for (auto &it : workers)
            it.join();
    }
};

} // namespace

int main(int count, char **words)
{
    int cycles = count > 2 ? std::atoi(words[1]) : 0;
    host it;
    it.files.assign(words + 2, words + (count > 2 ? count : 2));
    if (cycles < 1) {
        std::cerr << "plugin_host CYCLES PLUGIN.so ..\n";
        return 2;
    }
    it.run(cycles);
    long loads = cycles * static_cast<long>(it.files.size());
    std::cout << loads << " loads, " << it.calls << " calls, " << it.refused << " refused\n"
              << it.unmapped << " unmapped after dlclose()\n";
    return it.unmapped != loads || !it.calls;
}
