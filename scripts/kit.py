"""The kit's rt, as a module: for scripts that have it prove in another order than its commands do, or on a copy."""

import importlib.machinery
import importlib.util
import os
import shutil
import subprocess


def load_rt():
    """The kit's rt. If the kit is of another version this may raise, and the caller must catch it."""
    kit = os.path.dirname(subprocess.run(["rt", "doc"], check=True, stdout=subprocess.PIPE, text=True).stdout)
    loader = importlib.machinery.SourceFileLoader("rt", f"{kit}/bin/rt")
    module = importlib.util.module_from_spec(importlib.util.spec_from_loader("rt", loader))
    loader.exec_module(module)
    if not hasattr(module, "share_work"):
        complete(module)
    return module


def complete(rt):
    """Gives an rt of an early kit of this version, which stores proofs in each crate's out/ alone, the names of later ones."""
    refused = rt.must_fail

    def crates_of(root):
        rt.rtlib.Crate = rt.Crate
        return sorted(rt.rtlib.crates_below(root), key=lambda it: len(it.below()))

    def must_fail(crate, edit, flags, kept=None):
        is_refused, said = refused(crate, edit, flags, kept)
        return rt.REFUSED if is_refused else None, said

    rt.REFUSED, rt.AT_LIMIT = "refused", "at limit"
    rt.SETTLED = (rt.REFUSED, rt.AT_LIMIT)
    rt.crates_of, rt.must_fail = crates_of, must_fail
    rt.share_work = lambda is_shared: None
    rt.work_for = lambda crate: f"{crate.folder}/out/incremental"
    rt.linked = shutil.copytree
