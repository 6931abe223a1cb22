/* SPDX-License-Identifier: MIT OR Apache-2.0 */
/* The plug-in of plugin.c in C++. */
#include "plugin.h"
#include <atomic>
#include <cstdint>
#include <cstdlib>

namespace {

struct counter {
    std::atomic<std::int64_t> value{0}, inside{0};
};

std::atomic<std::int64_t> calls{0};

void *start() { return new counter; }

std::int64_t call(void *object, std::int64_t by)
{
    auto &it = *static_cast<counter *>(object);
    ++it.inside;
    ++calls;
    std::int64_t before = it.value.fetch_add(by);
    --it.inside;
    return before;
}

void stop(void *object)
{
    auto *it = static_cast<counter *>(object);
    if (it->inside)
        std::abort();
    delete it;
}

} // namespace

const plugin_table PLUGIN = {start, call, stop};
