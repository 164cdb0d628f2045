"""Groups that a list merges: the C library's clients beside the service and without it, which must say the same."""

from clients import NAMESPACES
from foreign import TWICE, built, compared, lacking, lookups, said
from judged import says
from places import folder
from running import check
from serving import Served

GROUPS = "adm:x:4:ann\nstaff:x:50:ann,bob\nown:x:6:\ncrew:x:7:ann,ann,cid\n-crew\n+\n"
EXTRA = "extra:x:60:ann,cid\nadm:y:4:bob,ann\nstaff:x:51:cid\nowns:x:6:bob\ncrew:x:7:bob\n"
# Each service before the last has this rule alone, as nscd-serve asks of a list that is served whole.
LISTS = (
    "files [SUCCESS=merge] extrausers",
    "extrausers [SUCCESS=merge] files",
    "files [SUCCESS=merge] extrausers [SUCCESS=merge] files [SUCCESS=merge]",
    "files [SUCCESS=merge] compat",
    "compat [SUCCESS=merge] extrausers",
    "extrausers [SUCCESS=merge] db [SUCCESS=merge] files",
)
CALLS = [f"getgrnam {name}" for name in ("adm", "staff", "own", "owns", "crew", "extra", "nosuch")]
CALLS += [f"getgrgid {gid}" for gid in (4, 6, 7, 50, 51, 60, 61)]
# The C library may give an id of a user twice, and in another order.
CALLS += [f"setofgroups {name}" for name in ("ann", "bob", "cid", "nosuch")]


def under(run, namespace, module, text):
    """The lines that were compared under this list of group, which is served whole."""
    (run.etc / "nsswitch.conf").write_text(f"passwd: files\ngroup: {text}\ngroup_compat: extrausers\nhosts: files\nservices: files\n")
    run.start()
    check("nscd: group is served whole\n" in says(run.serve, "left"), f"{text}: group is not served whole")
    lines = compared(run, namespace, module, CALLS * TWICE, run.etc)
    check(lookups(run)["group"] > len(CALLS), f"{text}: the daemon was asked {lookups(run)}")
    run.order("-K")
    run.process.communicate(timeout=20)
    return lines


def merging_case():
    if lacking():
        return lacking()
    with folder() as top:
        run = Served(top)
        extra = run.etc / "extrausers"
        extra.mkdir()
        (run.etc / "group").write_text(GROUPS)
        (extra / "group").write_text(EXTRA)
        (run.etc / "nsswitch.conf").write_text("group: files [SUCCESS=merge] extrausers\n")
        (top / "asked").write_text("getgrnam adm\n")
        module = built(top, "/etc/extrausers", "extrausers")
        if module is None:
            return "skipped, since there is no C compiler"
        namespace = next((words for words in NAMESPACES if said(words, run.etc, module, "", top / "asked", run.etc) is not None), None)
        if namespace is None:
            return "skipped, since no mount namespace may be had here"
        try:
            lines = [line for text in LISTS for line in under(run, namespace, module, text)]
        finally:
            if run.process is not None:
                run.process.kill()
                run.process.wait()
        check(any("['ann', 'bob', 'ann']" in line for line in lines), f"the C library merges no members: {lines[:20]}")
        return f"the C library merges groups as the service does: {len(lines)} lines under {len(LISTS)} lists"
