"""bench/run-ribbon's clock: ribbon.py FOLDER FILE.pdb ... -- PROGRAM [WORD ...]

A process is timed from its start to its end, with its output to /dev/null or to a file in FOLDER, which is there and empty when the clock starts. The three
run in turn, so that what else the machine does weighs on all alike, and each figure is the fastest of its runs."""
import filecmp
import os
import sys
import time

NAMES = ["program", "./ribbon", "Rust"]


def commands(program, file):
    return [program + ["large", "1", file], ["./ribbon", file], ["oracle/target/release/oracle", "ribbon", file]]


def run(command, out):
    """How long it took, in milliseconds. A run that fails ends the bench."""
    to = os.open(out, os.O_WRONLY | os.O_CREAT | os.O_TRUNC, 0o644)
    null = os.open("/dev/null", os.O_RDWR)
    # descriptor 3 is where a program tells its status
    places = [(os.POSIX_SPAWN_DUP2, null, 0), (os.POSIX_SPAWN_DUP2, to, 1), (os.POSIX_SPAWN_DUP2, null, 2), (os.POSIX_SPAWN_DUP2, null, 3)]
    began = time.perf_counter()
    child = os.posix_spawn(command[0], command, os.environ, file_actions=places)
    _, status = os.waitpid(child, 0)
    took = time.perf_counter() - began
    os.close(to)
    os.close(null)
    if status:
        sys.exit(f"bench/run-ribbon: '{' '.join(command)}' ended with status {os.waitstatus_to_exitcode(status)}")
    return 1e3 * took


def compare(all_commands, folder):
    """All three write the same file; its size."""
    paths = [f"{folder}/{i}.stl" for i in range(3)]
    for command, path in zip(all_commands, paths):
        run(command, path)
    with open(paths[0], "rb") as f:
        facets = int.from_bytes(f.read(84)[80:], "little")
    size = os.path.getsize(paths[0])
    if not facets or size != 84 + 50 * facets:
        sys.exit(f"bench/run-ribbon: {paths[0]} is no STL file with facets")
    for name, path in zip(NAMES, paths):
        if not filecmp.cmp(paths[0], path, shallow=False):
            sys.exit(f"bench/run-ribbon: {path}, of {name}, is not {paths[0]}, of {NAMES[0]}")
    for path in paths:
        os.remove(path)
    return size


def fastest(all_commands, out):
    """The fastest run of each: as many rounds as fit into ten seconds, at least five, at most 200."""
    best = [float("inf")] * 3
    began, rounds = time.perf_counter(), 0
    while rounds < 5 or rounds < 200 and time.perf_counter() - began < 10:
        for i, command in enumerate(all_commands):
            best[i] = min(best[i], run(command, out))
        rounds += 1
    return best, rounds


def main():
    folder, *rest = sys.argv[1:]
    files, program = rest[: rest.index("--")], rest[rest.index("--") + 1 :]
    print("milliseconds from start to end, the fastest of the runs; the last two are ratios to the Rust")
    print(f"{'file':>10} {'bytes':>8} {'STL bytes':>10} {'to':>9} {'runs':>4} {'program':>9} {'./ribbon':>9} {'Rust':>9} {'program':>8} {'./ribbon':>8}")
    for file in files:
        all_commands = commands(program, file)
        size = compare(all_commands, folder)
        for to, out in [("/dev/null", "/dev/null"), ("the disk", f"{folder}/out.stl")]:
            best, rounds = fastest(all_commands, out)
            times = " ".join(f"{x:9.2f}" for x in best)
            ratios = " ".join(f"{x / best[2]:8.2f}" for x in best[:2])
            print(f"{os.path.basename(file):>10} {os.path.getsize(file):>8} {size:>10} {to:>9} {rounds:>4} {times} {ratios}", flush=True)
    os.remove(f"{folder}/out.stl")


main()
