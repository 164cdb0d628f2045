"""Tries the installation, the packages, the manual pages and what the service runs with.

Each case ends with a sentence of what it showed, or of what it needed and did not find. With the names of cases only those are tried.
"""

import os
import subprocess
import sys

sys.dont_write_bytecode = True
import guarded
from foreign import foreign_case
from keeping import kept_case
from machine import container_case, force_case, init_case, package_case, systemd_case, upgrade_case
from merging import merging_case
from monitoring import monitoring_case
from places import completions_case, made_case, manuals_case, places_case
from running import PROGRAM, Fault
from service import calls_case, unit_case
from serving import left_case, lines_case, reload_case
from settings import settings_case
from starting import names_case, second_case, terms_case
from stock import library_case, stock_case
from tables import attributes_case, options_case

CASES = {
    "options": options_case,
    "attributes": attributes_case,
    "settings": settings_case,
    "manuals": manuals_case,
    "completions": completions_case,
    "places": places_case,
    "make": made_case,
    "left": left_case,
    "stock": stock_case,
    "library": library_case,
    "lines": lines_case,
    **guarded.CASES,
    "names": names_case,
    "reload": reload_case,
    "foreign": foreign_case,
    "merging": merging_case,
    "second": second_case,
    "kept": kept_case,
    "monitoring": monitoring_case,
    "unit": unit_case,
    "terms": terms_case,
    "calls": calls_case,
    "init": init_case,
    "container": container_case,
    "force": force_case,
    "package": package_case,
    "systemd": systemd_case,
    "upgrade": upgrade_case,
}
# These run the program.
RUNNING = ("settings", "reload", "foreign", "merging", "second", "kept", "monitoring", "calls", "init", "container", "package", "systemd", "upgrade")


def main(names):
    unknown = [name for name in names if name not in CASES]
    if unknown:
        sys.exit(f"install: no case {unknown[0]}; there are {', '.join(CASES)}")
    os.environ["PATH"] += ":/usr/sbin:/sbin"
    # What is started here gives way to whatever else the machine does.
    os.nice(19)
    # Images are to go where a case says.
    os.environ.pop("STATE_DIRECTORY", None)
    faults = 0
    for name in names or CASES:
        if name in RUNNING and not PROGRAM.exists():
            print(f"install: {name}: skipped, since there is no {PROGRAM}", flush=True)
            continue
        try:
            print(f"install: {name}: {CASES[name]()}", flush=True)
        except (Fault, OSError, subprocess.SubprocessError) as fault:
            faults += 1
            print(f"install: {name}: FAULT: {fault!r}", file=sys.stderr)
    print(f"install: {len(names or CASES)} cases, {faults} faults")
    sys.exit(1 if faults else 0)


if __name__ == "__main__":
    main(sys.argv[1:])
