"""What `try` stands on of the command rt, for an rt that hasn't got it yet: that of rattle-kit-13b keeps nothing of a run of
`rt ci`, and tries a crate's edits one after the other."""
import atexit
import os
import shutil
import tempfile
import threading

REFUSED, AT_LIMIT, NOT_REFUSED = "refused", "at a limit", "not refused"
COULD_NOT_TELL, UNTOLD = 3, "it did not reach the prover"  # the status of a check that came to a limit, and what is said of it
WRITTEN_IN_PLACE = {"rattle-last-used", "offered.json"}  # a check writes these where they stand, and all else anew
OVER = 0.7  # the share of the memory of a check from nothing that one over kept work takes


def listing(folder):
    """The files below a folder, each with what changes when it is written."""
    found = {}
    for at, _, files in os.walk(folder):
        for name in files:
            seen = os.stat(f"{at}/{name}")
            found[f"{at}/{name}"] = (seen.st_ino, seen.st_size, seen.st_mtime_ns)
    return found


def link_or_copy(source, copy):
    """A file by a link, but for one that a check of the copy would change with it."""
    if os.path.basename(source) in WRITTEN_IN_PLACE:
        shutil.copy2(source, copy)
    else:
        os.link(source, copy)


def linked(source, copy):
    """A folder with the same files, mostly by links."""
    shutil.copytree(source, copy, copy_function=link_or_copy)


def fill_in(rt):
    """Gives this rt what it lacks."""
    if hasattr(rt, "seeded") or hasattr(rt, "REFUSED"):
        return

    def seeded(crate, flags):
        """A folder with what a check of the crate as it stands proves, or None where it isn't proved."""
        room = tempfile.mkdtemp(prefix="rt-seed-")
        atexit.register(shutil.rmtree, room, ignore_errors=True)
        return None if rt.checked(crate, {}, flags, f"{room}/seed").returncode else room

    checked, tried, last = rt.checked, rt.must_fail, threading.local()

    def noted(*about):
        """A check, whose status is noted."""
        ran = checked(*about)
        last.status = ran.returncode
        return ran

    def must_fail(*about):
        last.status = None
        is_refused, text = tried(*about)
        if is_refused:
            return REFUSED, text
        if last.status == COULD_NOT_TELL and UNTOLD in text:
            return AT_LIMIT, f"{text.partition(':')[0]}: not proved: the check came to a limit"
        return NOT_REFUSED, text

    rt.checked, rt.seeded, rt.must_fail, rt.linked, rt.listing = noted, seeded, must_fail, linked, listing
    rt.REFUSED, rt.AT_LIMIT, rt.OVER, rt.Kept, rt.stamp_of = REFUSED, AT_LIMIT, OVER, None, None
