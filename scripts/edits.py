#!/usr/bin/env python3
"""Checks that the prover refuses the wrong bodies of crates/NAME/wrong-bodies/, many in one check:

    scripts/edits.py [--proved] NAME ..    those of these crates
    scripts/edits.py [--proved] --all      those of all crates: up to two processor hours
    scripts/edits.py [--proved] --sample   those of crates that changed in the last 20 commits, and of a quarter of the
                                           others, but at most 150. The number of commits determines which come
                                           first, so later commits try the others
    scripts/edits.py --apply-only [NAME ..]  proves nothing: whether each edit there, and in must-fail/, can be applied

An edit that is still proved, or that cannot be applied or compiled, fails, and the status is 1. A check begins with what
`rt check` stored of the crate, in a checkout on this machine, or else with nothing. The libraries that a crate uses are those
that `rt ci` or `rt check` left; what is missing is proved first, and the crate too. --proved says that `rt ci` has just
proved the crates: a check then begins only with what was stored in this checkout.

The wrong bodies in must-fail/, which the specification names, are tried by `rt ci` one by one. The kit's rt must be on
the path.
"""

import os
import re
import resource
import shutil
import subprocess
import sys
import tempfile
import threading
import time
from concurrent.futures import ThreadPoolExecutor

import joined
from kit import load_rt

ROOT = os.path.dirname(os.path.dirname(os.path.abspath(__file__)))
OPTIONS = ("--all", "--sample", "--apply-only", "--proved")
COMMITS, TURNS = 20, 4
# The most wrong bodies in a sample. They take about three quarters of an hour of a processor.
MOST = 150
# A check with two jobs needs little more processor time than one with one job.
JOBS = 2
# Seconds of a processor for each wrong body, on average: for the first line that is printed.
SECONDS_EACH = 18
printing = threading.Lock()


def say(text):
    with printing:
        print(f"edits: {text}", flush=True)


def refuse(why):
    print(f"edits.py: {why}", file=sys.stderr)
    sys.exit(2)


def paths_of(name, *folders):
    """The edits of a crate in these of its folders, which hold nothing else."""
    found = []
    for folder in (os.path.join(ROOT, "crates", name, it) for it in folders):
        for file in sorted(os.listdir(folder)) if os.path.isdir(folder) else ():
            if not file.endswith(".edit"):
                refuse(f"{os.path.relpath(os.path.join(folder, file), ROOT)} is not an edit: the name of an edit ends in .edit")
            found.append(os.path.join(folder, file))
    return found


def crates_with_edits(*folders):
    names = sorted(os.listdir(os.path.join(ROOT, "crates")))
    return [it for it in names if paths_of(it, *folders)]


def git(*words):
    ran = subprocess.run(["git", "-C", ROOT, *words], capture_output=True, text=True)
    return ran.stdout if ran.returncode == 0 else ""


def code(text):
    """The lines of a text but blank lines and comments."""
    return [it for it in map(str.strip, text.splitlines()) if it and not it.startswith(("//", "--"))]


def changed_crates():
    """The crates whose code, specs, proofs or edits changed in the last commits, but by comments or a new name alone."""
    found = set()
    for commit in git("log", f"-{COMMITS}", "--no-merges", "--format=%H").split():
        for line in git("diff-tree", "-r", "-M", "--root", "--no-commit-id", "--name-status", commit).splitlines():
            kind, *paths = line.split("\t")
            parts = paths[-1].split("/")
            if parts[0] != "crates" or kind == "R100" or parts[2:3] not in (["src"], ["specs"], ["proofs"], ["wrong-bodies"]) or parts[1] in found:
                continue
            before = "" if kind == "A" else git("show", f"{commit}^:{paths[0]}")
            after = "" if kind == "D" else git("show", f"{commit}:{paths[-1]}")
            if code(before) != code(after):
                found.add(parts[1])
    return found


def sample():
    """The crates whose turn it is, each with the reason, and the others."""
    names, changed = crates_with_edits("wrong-bodies"), changed_crates()
    number = int(git("rev-list", "--count", "--first-parent", "HEAD") or 0)
    reasons = {name: "its turn" for name in names[number % TURNS :: TURNS]} | dict.fromkeys(changed, "changed")
    first = number % len(names)
    in_turn = sorted(names[first:] + names[:first], key=lambda it: it not in changed)
    chosen, count = {}, 0
    for name in in_turn:
        more = len(paths_of(name, "wrong-bodies"))
        if name in reasons and count + more <= MOST:
            chosen[name] = reasons[name]
            count += more
    return chosen, [it for it in names if it not in chosen]


def apply_only(names):
    """Whether all edits of these crates can be applied, each alone, to the text as it is."""
    count, failed = 0, []
    for name in names:
        paths = paths_of(name, "must-fail", "wrong-bodies")
        bad = joined.read_edits(os.path.join(ROOT, "crates", name), paths)[1]
        failed += [f"{name}/{edit}: {why}" for edit, why in bad.items()]
        count += len(paths)
    for it in failed:
        say(it)
    say(f"{count - len(failed)} can be applied, {len(failed)} cannot")
    return not failed


def are_as_ci_left(crates, is_proved):
    """Whether each library is proved, by `rt ci`, which leaves no stamp, and of this text, if that is not known."""
    for it in crates:
        built = f"{it.rlib}/format"
        if not os.path.isfile(built) or os.path.exists(f"{it.folder}/out/rlib/stamp"):
            return False
        if is_proved:
            continue
        ended = os.stat(built).st_mtime
        parts = [f"{it.folder}/{part}" for part in ("src", "specs", "proofs")]
        files = [os.path.join(at, name) for part in parts for at, _, names in os.walk(part) for name in names]
        if any(os.stat(file).st_mtime > ended for file in files):
            return False
    return True


def prepare(rt, crates, is_proved):
    """Whether the libraries below are proved now."""
    below = {it.name: it for crate in crates for it in crate.below()}
    if are_as_ci_left(below.values(), is_proved):
        return True
    rt.share_work(True)
    for crate in below.values():
        if not crate.is_built():
            say(f"{crate.name}: proves this library first")
        if crate.build_rlib(["--jobs", str(JOBS)], anew=False):
            say(f"{crate.name} is not proved")
            return False
    return True


def try_crate(rt, crate, is_proved, place):
    """Tries the wrong bodies of a crate: how many are refused, and the names of those that fail."""
    began = time.monotonic()
    say(f"{crate.name} ({place}) begins")
    edits, bad = joined.read_edits(crate.folder, paths_of(crate.name, "wrong-bodies"))
    for name, why in bad.items():
        say(f"{crate.name}/{name}: {why}")
    with tempfile.TemporaryDirectory(prefix=f"rt-edits-{os.getpid()}-") as folder:
        over, kept = f"{folder}/over", f"{crate.folder}/out/incremental" if is_proved else rt.work_for(crate)
        rt.linked(kept, over) if kept and os.path.isdir(kept) else os.mkdir(over)
        trial = joined.Trial(rt, crate, ["--jobs", str(JOBS)], over, lambda text: say(f"{crate.name}/{text}"))
        if not is_proved and not trial.is_proved():
            say(f"{crate.name} is not proved without an edit: run rt check there first")
            return 0, [crate.name]
        alone = trial.run(edits)
    seconds = time.monotonic() - began
    failed = [f"{crate.name}/{it}" for it in (*bad, *trial.failed)]
    say(f"{crate.name}: {trial.refused} refused, {len(failed)} failed; {alone} tried alone; {seconds:.0f} s")
    return trial.refused, failed


def processor_seconds():
    used = resource.getrusage(resource.RUSAGE_CHILDREN)
    return used.ru_utime + used.ru_stime


def try_crates(names, is_proved):
    """Whether all wrong bodies of these crates are refused. Two crates are tried at a time on four processors."""
    began = time.monotonic()
    count = sum(len(paths_of(it, "wrong-bodies")) for it in names)
    minutes = count * SECONDS_EACH // (60 * len(os.sched_getaffinity(0))) + 1
    say(f"{count} wrong bodies of {len(names)} crates: about {minutes} minutes, if nothing else must be proved first")
    try:
        rt = load_rt()
        rt.rtlib.guarded()
        os.chdir(ROOT)
        rt.Crate.allowed = rt.handles_of(ROOT)
        crates = {it.name: it for it in rt.crates_of(ROOT) if it.name in names}
    except (AttributeError, ImportError, OSError) as error:
        refuse(f"the kit's rt is needed, put together as that of the kit that README.md names: {error}")
    every = {it.folder: it for crate in crates.values() for it in (*crate.below(), crate)}
    held = rt.rtlib.lock([*every.values()])
    if not prepare(rt, crates.values(), is_proved):
        return False
    lanes = max(1, rt.processors() // JOBS)
    largest = sorted(crates.values(), key=lambda it: -len(paths_of(it.name, "wrong-bodies")))
    with ThreadPoolExecutor(lanes) as pool:
        results = [*pool.map(lambda it: try_crate(rt, it, is_proved, f"{largest.index(it) + 1} of {len(largest)}"), largest)]
    for it in held:
        os.close(it)
    failed = [it for _, some in results for it in some]
    if failed:
        say(f"FAILED: {' '.join(failed)}")
    times = f"{time.monotonic() - began:.0f} s, {processor_seconds():.0f} s of processors"
    say(f"{sum(it for it, _ in results)} refused, {len(failed)} failed, of {len(crates)} crates; {times}")
    return not failed


def chosen_by(words):
    """The crates that the command line names."""
    names = [it for it in words if not it.startswith("-")]
    if "--sample" in words:
        chosen, left = sample()
        say("tries " + (", ".join(f"{name} ({why})" for name, why in chosen.items()) or "none"))
        say("leaves out " + (", ".join(left) or "none"))
        return [*chosen]
    folders = ("must-fail", "wrong-bodies") if "--apply-only" in words else ("wrong-bodies",)
    every = crates_with_edits(*folders)
    lacking = [it for it in names if it not in every]
    if lacking:
        refuse(f"there are no edits of a crate {lacking[0]} in crates/")
    return names or every


def main():
    words = sys.argv[1:]
    if words[:1] in (["-h"], ["--help"]):
        sys.exit(print(__doc__.strip()))
    unknown = [it for it in words if it.startswith("-") and it not in OPTIONS]
    if unknown or not {*words} - {"--proved"} or len({"--all", "--sample", "--apply-only"} & {*words}) > 1:
        refuse(f"{f'no option {unknown[0]}' if unknown else 'names of crates, --all, --sample or --apply-only'}; --help says more")
    if re.search("--(all|sample)", " ".join(words)) and any(not it.startswith("-") for it in words):
        refuse("--all and --sample take no names")
    names = chosen_by(words)
    if "--apply-only" in words:
        sys.exit(0 if apply_only(names) else 1)
    if not shutil.which("rt"):
        refuse("rt is not on the path: it is part of the Rattle kit, see README.md")
    sys.exit(0 if try_crates(names, "--proved" in words) else 1)


if __name__ == "__main__":
    main()
