"""Crates that are proved only by `.ci/prove --all`, and before they are built for timing: no promise rests on them, and
`.ci/try` builds and runs them unproved."""

CRATES = ["cfdp_bench"]


def leave_out(kit):
    """Has the kit's command prove all other crates. It still reads the list and the files of these."""
    crates_of, stop_on_unread, every = kit.crates_of, kit.rtlib.stop_on_unread, []

    def others(root):
        every[:] = crates_of(root)
        return [it for it in every if it.name not in CRATES]

    kit.crates_of = others
    kit.rtlib.stop_on_unread = lambda folder, crates: stop_on_unread(folder, every)


def told():
    """What is said of them at the end of a run that left them out."""
    return [f"not proved in this run, as they are only for timing: {' '.join(CRATES)} (`.ci/prove --all` proves them)"]
