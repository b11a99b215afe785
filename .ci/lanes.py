"""In which order a run makes its checks, with how many jobs, and how many side by side.

The kit's command gives a proof all processors that no other proof waits for, and counts some three times the memory
that a check takes. A check with two to four jobs takes a fifth more processor time (cfdp_pdus 156 s with one, 194 with
two, 184 with four), since each job loads what the crate needs. Here a check has one job for as long as another check
waits, of an edit too, and more only where processors would be idle. So most of the run costs what one job costs, and
its end, a chain of proofs, takes all processors.

The memory of a check is taken for half of what the kit's command says: measured were a fourth to two fifths of it
(cfdp_tree, cfdp_states, cfdp_order, cfdp_pdus). No check begins that would not fit with those under way, unless it is
alone.

With RT_JOBS in the environment the kit's command does as it does: so many checks, one job each, of any memory."""

import os
from concurrent.futures import FIRST_COMPLETED, ThreadPoolExecutor, wait

# What a check takes of the memory that the kit's command says, and what a further job adds.
SHARE, JOB = 0.5, 0.6
# The most jobs of a check, and the share of the free memory that checks may take.
MOST_JOBS, MOST_MEMORY = 4, 0.85


def take_over(kit):
    """Has the kit's command make its checks so."""
    if not os.environ.get("RT_JOBS"):
        kit.in_lanes = lambda tasks: in_lanes(kit, tasks)


def behind(tasks):
    """By task, the work in lines of the longest chain of tasks that begins with it. A task comes after those that it
    waits for."""
    found = dict.fromkeys(tasks, 0)
    for key in reversed([*tasks]):
        found[key] += tasks[key][1]
        for it in tasks[key][0]:
            found[it] = max(found[it], found[key])
    return found


def jobs_for(needs, idle, others, room):
    """How many jobs a check has: one, and one for each processor that nothing waits for, where memory is free."""
    spare = min(MOST_JOBS, idle - others)
    while spare > 1 and needs * (1 + JOB * (spare - 1)) > room:
        spare -= 1
    return max(1, spare)


def in_lanes(kit, tasks):
    """Runs tasks and returns what each gave, by its name. A task is what it waits for, its work in lines, its memory,
    and a call that gets what was given and how many jobs it may use. Proofs with the longest chain come first, and
    edits last."""
    lanes, memory, chains = kit.processors(), MOST_MEMORY * kit.free(), behind(tasks)
    left = sorted(tasks, key=lambda it: (it[1] in ("edits", "seed", "harmless"), -chains[it]))
    running, given = {}, {}
    with kit.ending(), ThreadPoolExecutor(lanes) as pool:
        while left or running:
            ready = [it for it in left if all(below in given for below in tasks[it][0])]
            for at, key in enumerate(ready):
                needs, call = SHARE * tasks[key][2], tasks[key][3]
                idle = lanes - sum(jobs for _, _, jobs in running.values())
                room = memory - sum(much for _, much, _ in running.values())
                if idle < 1 or running and needs > room:
                    # what comes first waits for memory, which what comes after it would take again and again
                    break
                # the checks of edits have one job each
                jobs = jobs_for(needs, idle, len(ready) - at - 1, room) if key[1] in ("proof", "tests") else 1
                left.remove(key)
                running[pool.submit(call, given, jobs)] = key, needs * (1 + JOB * (jobs - 1)), jobs
            for it in wait(running, return_when=FIRST_COMPLETED).done:
                given[running.pop(it)[0]] = it.result()
    return given
