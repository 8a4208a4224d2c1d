"""The programs that are compared, each by how it is called before its rows are named, and what they run on."""
import os
import platform
import subprocess
import sys

from building import crates

BENCH = "tinyvec_bench"
PEERS = crates.TOP / "bench/peers/target/release/peers"
CRATES = ["tinyvec", "smallvec", "arrayvec"]


def beside_rust():
    """Rust's crates, and std. Each compiler builds for its default processor."""
    return {"here": [program(BENCH)]} | {it: [PEERS, it] for it in [*CRATES, "vec"]}


def program(name):
    return crates.TOP / f"crates/{name}/out/{name}"


def lines(command):
    return [line.split() for line in output(command).splitlines()]


def output(command):
    return subprocess.run(command, check=True, capture_output=True, text=True, cwd=crates.TOP).stdout.strip()


def check_sums(beside):
    """Stops where two programs disagree on a row that both have."""
    sums = {}
    for name, command in beside.items():
        for row, capacity, _, total in lines([*command, "rows", "20"]):
            first = sums.setdefault((row, capacity), (total, name))
            if first[0] != total:
                sys.exit(f"checksums of {row} at {capacity} differ: {first[1]} {first[0]}, {name} {total}")
    print(f"checksums agree in {len(sums)} rows\n", flush=True)


def sources(names):
    """Differs where a source of these crates or of those below does."""
    known = crates.read_crates()
    needed = crates.with_below([known[it] for it in names])
    return crates.sum_of([(it.name, it.sources) for it in needed])[:16]


def describe(core, names):
    """Says what this runs on, and what of."""
    load = os.getloadavg()[0]
    with open("/proc/cpuinfo", encoding="utf-8") as info:
        model = next(line.partition(":")[2].strip() for line in info if line.startswith("model name"))
    print(f"    machine   {model}, {os.cpu_count()} cores, {platform.system()} {platform.release()}, load {load:.1f}")
    print(f"    here      {output(['rt', 'version'])}, sources {sources(names)}")
    packages = [f"librust-{crate}-dev" for crate in CRATES]
    listed = output(["dpkg-query", "-W", "-f", "${Package} ${Version}\n", *packages]).splitlines()
    versions = ", ".join(it.removeprefix("librust-").replace("-dev ", " ") for it in listed)
    print(f"    peers     {output(['rustc', '--version'])}; {versions}")
    print(f"    pinned    to core {core}\n")
