# SPDX-License-Identifier: MIT OR Apache-2.0
"""Processors, their caches, frequencies and idle states, the nodes of memory, and the counters of memory errors."""
import dataclasses

from nodes import mask

CPU, NODE = "/devices/system/cpu", "/devices/system/node"
ZERO_WHEN_CALM = "core_throttle_count", "core_throttle_total_time_ms", "package_throttle_count"
MITIGATIONS = {
    "meltdown": "Mitigation: PTI",
    "mds": "Not affected",
    "spec_store_bypass": "Mitigation: Speculative Store Bypass disabled via prctl",
    "spectre_v1": "Mitigation: usercopy/swapgs barriers and __user pointer sanitization",
    "spectre_v2": "Mitigation: Retpolines",
}


@dataclasses.dataclass
class Layout:
    """How many packages, cores of each package and threads of each core, over how many nodes; and what they are."""

    packages: int
    cores: int
    threads: int
    nodes: int
    megabytes: int
    megahertz: int
    driver: str = "intel_pstate"
    idle_driver: str = "intel_idle"
    family: str = "x86,ven0000fam0006mod0055"

    @property
    def total(self):
        return self.packages * self.cores * self.threads

    def node_of(self, number):
        return number * self.nodes // self.total

    def package_of(self, number):
        return number // (self.cores * self.threads)

    def core_of(self, number):
        """The core of a processor within its package."""
        return number // self.threads % self.cores

    def siblings(self, number):
        return span(number // self.threads * self.threads, self.threads)

    def package_span(self, number):
        size = self.cores * self.threads
        return span(number // size * size, size)

    def node_span(self, node):
        return span(node * self.total // self.nodes, self.total // self.nodes)


def span(first, count):
    return f"{first}-{first + count - 1}" if count > 1 else f"{first}"


def processors(tree, layout):
    """All processors of a machine and all nodes of its memory."""
    for node in range(layout.nodes):
        memory_node(tree, layout, node)
    nodes, every = span(0, layout.nodes), span(0, layout.total)
    tree.put(NODE, has_cpu=nodes, has_memory=nodes, has_normal_memory=nodes, online=nodes, possible=nodes)
    tree.put(CPU, isolated="", kernel_max=8191, offline="", online=every, possible=every, present=every)
    tree.put(CPU, modalias=f"cpu:type:{layout.family}:feature:")
    tree.put(CPU + "/vulnerabilities", **MITIGATIONS)
    tree.put(CPU + "/smt", active=int(layout.threads > 1))
    tree.change(CPU + "/smt", control="on" if layout.threads > 1 else "notsupported")
    tree.put(CPU + "/cpuidle", current_driver=layout.idle_driver, current_governor_ro="menu")
    if layout.driver == "intel_pstate":
        tree.put(CPU + "/intel_pstate", num_pstates=35, turbo_pct=57)
        tree.change(CPU + "/intel_pstate", max_perf_pct=100, min_perf_pct=10, no_turbo=0, status="active")
    for number in range(layout.total):
        processor(tree, layout, number)


def processor(tree, layout, number):
    at = tree.directory(f"{CPU}/cpu{number}")
    words = {"OF_NAME": "cpu"} if "pstate" not in layout.driver else {}
    tree.on_bus(at, "cpu", "processor", **words, MODALIAS=f"cpu:type:{layout.family}:feature:")
    if number:
        tree.change(at, online=1)
    tree.link(f"{at}/node{layout.node_of(number)}", f"{NODE}/node{layout.node_of(number)}")
    tree.link(f"{NODE}/node{layout.node_of(number)}/cpu{number}", at)
    topology(tree, layout, number, at + "/topology")
    caches(tree, layout, number, at + "/cache")
    frequencies(tree, layout, number)
    idle_states(tree, at + "/cpuidle")
    if "pstate" in layout.driver:
        tree.put(at + "/thermal_throttle", **dict.fromkeys(ZERO_WHEN_CALM, 0))


def topology(tree, layout, number, at):
    own, package = layout.siblings(number), layout.package_span(number)
    lists = {"core_cpus": own, "thread_siblings": own, "core_siblings": package, "die_cpus": package}
    lists["package_cpus"] = package
    for name, cpus in lists.items():
        tree.put(at, **{name: mask(cpus, layout.total), f"{name}_list": cpus})
    tree.put(at, core_id=layout.core_of(number), die_id=0, physical_package_id=layout.package_of(number))


def caches(tree, layout, number, at):
    own, package = layout.siblings(number), layout.package_span(number)
    kinds = (
        (1, "Data", 32, 8, own),
        (1, "Instruction", 32, 8, own),
        (2, "Unified", 1024, 16, own),
        (3, "Unified", 2048 * layout.cores, 16, package),
    )
    for index, (level, kind, kilobytes, ways, cpus) in enumerate(kinds):
        core = layout.package_of(number) * layout.cores + layout.core_of(number)
        tree.put(
            f"{at}/index{index}",
            coherency_line_size=64,
            id=layout.package_of(number) if level == 3 else core,
            level=level,
            number_of_sets=kilobytes * 1024 // 64 // ways,
            physical_line_partition=1,
            shared_cpu_list=cpus,
            shared_cpu_map=mask(cpus, layout.total),
            size=f"{kilobytes}K",
            type=kind,
            ways_of_associativity=ways,
        )


def frequencies(tree, layout, number):
    policy, most = f"{CPU}/cpufreq/policy{number}", layout.megahertz * 1000
    tree.put(
        policy,
        affected_cpus=number,
        cpuinfo_max_freq=most,
        cpuinfo_min_freq=most // 6,
        cpuinfo_transition_latency=0,
        related_cpus=number,
        scaling_available_governors="performance powersave",
        scaling_cur_freq=most // 2 + 1000 * number,
        scaling_driver=layout.driver,
    )
    tree.change(
        policy,
        scaling_governor="powersave",
        scaling_max_freq=most,
        scaling_min_freq=most // 6,
        scaling_setspeed="<unsupported>",
    )
    if layout.driver == "intel_pstate":
        preferences = "default performance balance_performance balance_power power"
        tree.put(policy, energy_performance_available_preferences=preferences)
        tree.change(policy, energy_performance_preference="balance_performance")
    tree.link(f"{CPU}/cpu{number}/cpufreq", policy)


def idle_states(tree, at):
    for state, (name, latency) in enumerate((("POLL", 0), ("C1E", 10), ("C6", 133))):
        tree.put(
            f"{at}/state{state}",
            above=0,
            below=0,
            default_status="enabled",
            desc="CPUIDLE CORE POLL IDLE" if name == "POLL" else f"MWAIT {name}",
            latency=latency,
            name=name,
            power=0,
            rejected=0,
            residency=2 * latency,
            time=100000 * (state + 1),
            usage=1000 * (state + 1),
        )
        tree.change(f"{at}/state{state}", disable=0)


def memory_node(tree, layout, node):
    at = tree.on_bus(f"{NODE}/node{node}", "node")
    kilobytes, cpus = layout.megabytes * 1024 // layout.nodes, layout.node_span(node)
    shares = {"MemTotal": 1, "MemFree": 2, "MemUsed": 2, "Active": 4, "Inactive": 8, "FilePages": 8, "AnonPages": 8}
    meminfo = [f"Node {node} {name + ':':<15}{kilobytes // share:>8} kB\n" for name, share in shares.items()]
    pages = {"numa_hit": 100000, "numa_miss": 0, "numa_foreign": 0, "interleave_hit": 100, "local_node": 99900}
    pages["other_node"] = 100
    tree.put(
        at,
        cpulist=cpus,
        cpumap=mask(cpus, layout.total),
        distance=" ".join("10" if it == node else "21" for it in range(layout.nodes)),
        meminfo="".join(meminfo).encode(),
        numastat="".join(f"{name} {count}\n" for name, count in pages.items()).encode(),
        vmstat=f"nr_free_pages {kilobytes // 8}\nnr_zone_inactive_anon 1\n".encode(),
    )
    huge = at + "/hugepages/hugepages-2048kB"
    tree.put(huge, free_hugepages=0, surplus_hugepages=0)
    tree.change(huge, nr_hugepages=0)


def memory_controller(tree, megabytes, *labels):
    """A controller that counts errors of memory (EDAC), with its DIMMs."""
    number = tree.next("memory_controller")
    at = tree.on_bus(f"/devices/system/edac/mc/mc{number}", "edac")
    counts = {"ce_count": 3, "ce_noinfo_count": 0, "ue_count": 0, "ue_noinfo_count": 0}
    tree.put(at, **counts, max_location="channel 1 slot 0", mc_name=f"Skylake Socket#{number} IMC#0")
    tree.put(at, seconds_since_reset=12345, size_mb=megabytes)
    tree.only_written(at, "reset_counters")
    row = tree.on_bus(at + "/csrow0", "edac")
    tree.put(row, ce_count=3, ue_count=0, dev_type="x4", edac_mode="S8ECD8ED", mem_type="Registered-DDR4")
    tree.put(row, size_mb=megabytes)
    for channel, label in enumerate(labels):
        errors = 0 if channel else 3
        tree.put(row, **{f"ch{channel}_ce_count": errors, f"ch{channel}_dimm_label": label})
        tree.put(
            tree.on_bus(f"{at}/dimm{channel}", "edac"),
            dimm_ce_count=errors,
            dimm_dev_type="x4",
            dimm_edac_mode="S8ECD8ED",
            dimm_label=label,
            dimm_location=f"channel {channel} slot 0 ",
            dimm_mem_type="Registered-DDR4",
            dimm_ue_count=0,
            size=megabytes // len(labels),
        )
