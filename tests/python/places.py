"""What make install puts where, and how it is taken away; what is made for shells, and how the manual pages are checked."""

import os
import re
import shutil
import stat
import subprocess
import tempfile
import time
from contextlib import contextmanager
from pathlib import Path

from frames import ROOT
from running import PROGRAM, Fault, check
from tables import DATABASES, MAN, options

# Where make install has things, under PREFIX and SYSCONFDIR, and their modes.
PLACES = {
    "sbin/nscd": 0o755,
    "libexec/nscd/nscd": 0o755,
    "libexec/nscd/nscd-lists": 0o644,
    "libexec/nscd/nscd-serve": 0o755,
    "lib/systemd/system/nscd.service": 0o644,
    "lib/systemd/system/nscd-switch.path": 0o644,
    "lib/systemd/system/nscd-switch.service": 0o644,
    "lib/systemd/system/nscd-judge.service": 0o644,
    "lib/tmpfiles.d/nscd.conf": 0o644,
    "lib/sysusers.d/nscd.conf": 0o644,
    "share/man/man8/nscd.8": 0o644,
    "share/man/man5/nscd.conf.5": 0o644,
    "share/bash-completion/completions/nscd": 0o644,
    "share/zsh/site-functions/_nscd": 0o644,
    "share/nscd/installed": 0o644,
}
SETTINGS = {"nscd.conf": 0o644, "init.d/nscd": 0o755}
VERSION = (ROOT / "VERSION").read_text().strip()


@contextmanager
def folder():
    made = Path(tempfile.mkdtemp(prefix="nscd-install-"))
    made.chmod(0o755)
    try:
        yield made
    finally:
        shutil.rmtree(made)


def a_program(where):
    """A program that is newer than the sources: the built one, or where there is none a stub of it."""
    path = where / "nscd"
    if PROGRAM.exists():
        shutil.copy(PROGRAM, path)
    else:
        path.write_text("#!/bin/sh\nexit 1\n")
        path.chmod(0o755)
    return path


def without_make():
    return {name: value for name, value in os.environ.items() if name not in ("MAKEFLAGS", "MFLAGS", "MAKELEVEL")}


def make(target, program, root, **places):
    words = ["make", "-s", "-C", ROOT, target, f"NSCD={program}", f"DESTDIR={root}"]
    words += [f"{name}={value}" for name, value in places.items()]
    done = subprocess.run(words, capture_output=True, env=without_make(), timeout=60, check=False)
    return done.returncode, (done.stdout + done.stderr).decode()


def installed(top, program, *changes):
    """What make install has put below a folder, with nscd-serve over an etc and a run folder of ours."""
    where = {"PREFIX": f"{top}/usr", "SYSCONFDIR": f"{top}/etc"}
    status, said = make("install", program, "", **where)
    check(status == 0, f"make install: {said}")
    serve = top / "usr/libexec/nscd/nscd-serve"
    text = serve.read_text()
    for old, new in changes:
        check(text.count(old) == 1, f"nscd-serve: {old!r}")
        text = text.replace(old, new)
    serve.write_text(text)
    return serve


def tree(root):
    """Each file and folder below, with its mode and, of a file, its bytes."""
    found = {}
    for path in sorted(root.rglob("*")):
        mode = stat.S_IMODE(path.lstat().st_mode)
        found[str(path.relative_to(root))] = (mode, path.read_bytes() if path.is_file() else None)
    return found


def places_case():
    if shutil.which("make") is None:
        return "skipped, since there is no make"
    with folder() as top:
        program, root = a_program(top), top / "root"
        # Some of a system's folders are there, and a file of somebody else's.
        for name in ("usr/sbin", "usr/lib/systemd/system", "usr/share/man/man8", "etc"):
            (root / name).mkdir(parents=True)
        (root / "usr/sbin/other").write_text("other\n")
        before = tree(root)
        for prefix, sysconf in (("/usr", "/etc"), ("/opt/nscd", "/opt/nscd/etc")):
            where = {"PREFIX": prefix, "SYSCONFDIR": sysconf}
            status, said = make("install", program, root, **where)
            check((status, said) == (0, ""), f"make install: {status}, {said}")
            wanted = {f"{prefix}/{name}": mode for name, mode in PLACES.items()}
            wanted |= {f"{sysconf}/{name}": mode for name, mode in SETTINGS.items()}
            after = tree(root)
            files = {f"/{name}": mode for name, (mode, text) in after.items() if text is not None and name not in before}
            check(files == wanted, f"make install: {set(files.items()) ^ set(wanted.items())}")
            check(after[f"{prefix}/libexec/nscd/nscd"[1:]][1] == program.read_bytes(), "make install: another program")
            for name, (mode, text) in after.items():
                check(text is not None or mode == 0o755, f"{name}: mode {mode:o}")
                is_filled = text is None or name.endswith("libexec/nscd/nscd") or not re.search(rb"@[A-Z]+@", text)
                check(is_filled, f"{name}: something is not filled in")
            for name in ("share/man/man8/nscd.8", "share/man/man5/nscd.conf.5"):
                text = after[f"{prefix}/{name}"[1:]][1].decode()
                check(f"version {VERSION}." in text, f"{name}: not version {VERSION}")
                places = {*re.findall(r"/\S*/libexec/nscd", text), *re.findall(r"/\S*(?=/nscd\.conf)", text)}
                check(places <= {f"{prefix}/libexec/nscd", sysconf}, f"{name}: it names {places}")
            serve = after[f"{prefix}/libexec/nscd/nscd-serve"[1:]][1]
            check(f"conf={sysconf}/nscd.conf\n".encode() in serve, "nscd-serve: another nscd.conf")
            read = check_scripts([path for path in root.rglob("*") if str(path).endswith(SCRIPTS) and path.is_file()])
            # Once more, and all of it away.
            check(make("install", program, root, **where) == (0, ""), "make install again")
            check(tree(root) == after, "make install again changes something")
            check(make("uninstall", program, root, **where) == (0, ""), "make uninstall")
            check(tree(root) == before, f"make uninstall leaves {set(tree(root)) ^ set(before)}")
        said = f"make install puts {len(wanted)} files under either prefix, and make uninstall leaves what was there before; {read}"
        return f"{said}; {kept_case(top, program)}"


def made_case():
    """What make says of itself, and what make run needs, over a copy of what it reads."""
    if shutil.which("make") is None:
        return "skipped, since there is no make"
    text = (ROOT / "Makefile").read_text()
    targets = re.search(r"^\.PHONY: (.*)$", text, re.M).group(1).split()
    done = subprocess.run(["make", "-s", "-C", ROOT, "help"], capture_output=True, timeout=60, check=False, env=without_make())
    told = re.findall(r"^make (\w+) ", done.stdout.decode(), re.M)
    check(sorted(told + ["help"]) == sorted(targets), f"make help: {told}, and not {targets}")
    with folder() as top:
        for name in ("Makefile", "crates.txt", "HANDLES"):
            shutil.copy(ROOT / name, top / name)
        for name in ("tools", "examples"):
            shutil.copytree(ROOT / name, top / name)
        (top / "crates/nscd").mkdir(parents=True)
        shutil.copy(ROOT / "crates/nscd/args", top / "crates/nscd/args")
        # All tools but rt.
        tools = top / "bin"
        tools.mkdir()
        for place in ("/usr/bin", "/bin"):
            for path in Path(place).iterdir():
                if path.name != "rt" and not (tools / path.name).exists():
                    (tools / path.name).symlink_to(path)
        words = ["make", "-s", "-C", top, "run"]
        done = subprocess.run(words, capture_output=True, timeout=60, check=False, env=without_make() | {"PATH": str(tools)})
        line = "make run: there is no rt, the Rattle toolchain, and no build/nscd that is as new as the sources; one of them is needed"
        line += " (touch build/nscd if it was built elsewhere from these sources)"
        check(done.returncode != 0 and line in done.stderr.decode().splitlines() and done.stdout == b"", f"make run without rt: {done}")
    return f"make help says {len(told)} targets, and make run without rt says what is missing"


SCRIPTS = ("sbin/nscd", "libexec/nscd/nscd-serve", "init.d/nscd")


def check_scripts(paths):
    """What is installed is for the shell of POSIX, and for dash where that is here."""
    for shell in ("sh", "dash"):
        if shutil.which(shell) is None:
            return f"there is no {shell} to read the scripts"
        for path in paths:
            done = subprocess.run([shell, "-n", path], capture_output=True, timeout=20, check=False)
            check(done.returncode == 0 and done.stderr == b"", f"{shell} -n {path}: {done.stderr.decode()}")
    return f"sh and dash read {len(paths)} scripts"


def kept_case(top, program):
    """Settings that were changed are kept, and a program that is missing, old or somebody else's is refused."""
    root = top / "kept"
    where = {"PREFIX": "/usr"}
    conf = root / "etc/nscd.conf"
    check(make("install", program, root, **where)[0] == 0, "make install")
    conf.write_text("threads 7\n")
    for _ in range(2):
        status, said = make("install", program, root, **where)
        check((status, said) == (0, f"install: {conf} is left as it is\n"), f"over changed settings: {said}")
    check(conf.read_text() == "threads 7\n", "make install changes the administrator's settings")
    status, said = make("uninstall", program, root, **where)
    check((status, said) == (0, f"install: {conf} was changed, and is left\n"), f"uninstall of changed settings: {said}")
    check([name for name, (_, text) in tree(root).items() if text is not None] == ["etc/nscd.conf"], "uninstall leaves more than settings")
    status, said = make("uninstall", program, root, **where)
    check(status == 0 and "nothing is installed" in said, f"uninstall of nothing: {status}, {said}")

    status, said = make("install", top / "none", root, **where)
    check(status != 0 and f"there is no {top / 'none'}; make build" in said, f"no program: {status}, {said}")
    old = top / "old"
    shutil.copy(program, old)
    os.utime(old, (0, 0))
    status, said = make("install", old, root, **where)
    check(status != 0 and " is newer than " in said and "make build" in said, f"an old program: {status}, {said}")
    # One that was copied with its time into sources that are newer is taken as the line says.
    check(f"if it was built elsewhere from these sources, touch {old}" in said, f"an old program: {said}")
    old.touch()
    other = top / "other"
    status, said = make("install", old, other, **where)
    check((status, said) == (0, ""), f"a program that was touched: {status}, {said}")
    os.utime(old, (0, 0))
    status, said = make("deb", old, root)
    check(status != 0, f"a package of an old program: {status}, {said}")
    for place in ("usr/sbin/nscd", "etc/init.d/nscd"):
        theirs = top / place.replace("/", "-") / place
        theirs.parent.mkdir(parents=True)
        theirs.write_text("theirs\n")
        before = tree(top / place.replace("/", "-"))
        status, said = make("install", program, top / place.replace("/", "-"), **where)
        check(status != 0 and f"{theirs} is there already" in said, f"over another nscd: {status}, {said}")
        check(tree(top / place.replace("/", "-")) == before, "make install beside another nscd leaves something")
    return "settings that were changed are kept; no program, an old one, and another nscd in its place are refused"


# ---- shells


COMPLETE = """
source "$1"
shift
COMP_WORDS=("$@")
COMP_CWORD=$(($# - 1))
_nscd
printf '%s\\n' "${COMPREPLY[@]}"
"""


def completed(script, *words):
    done = subprocess.run(["bash", "--norc", "-c", COMPLETE, "bash", script, "nscd", *words], capture_output=True, timeout=20, check=True)
    check(done.stderr == b"", f"completion of {words}: {done.stderr!r}")
    return sorted(done.stdout.decode().split())


def names_of(found):
    return sorted(word for option in found for word in option.words())


def bash_case(where):
    if shutil.which("bash") is None:
        return "no bash is here"
    script = where / "nscd.bash"
    table = options()
    check(completed(script, "-") == names_of(table), "bash: not all options")
    check(completed(script, "") == names_of(table), "bash: not all options for nothing")
    for one in table:
        for word in one.words():
            # What may follow an option: those that share a form with it.
            wanted = [other for other in table if other != one and set(other.forms) & set(one.forms)]
            found = completed(script, word, *(["x"] if one.value else []), "-")
            check(found == names_of(wanted), f"bash: after {word}: {found}")
            if one.value == "DATABASE":
                check(completed(script, word, "") == sorted(DATABASES), f"bash: {word}")
                check(completed(script, word, "h") == ["hosts"], f"bash: {word} h")
            elif one.value == "FOLDER":
                check(completed(script, word, "/usr/sb") == ["/usr/sbin"], f"bash: {word} /usr/sb")
            elif one.value == "FILE":
                check(completed(script, word, "/etc/passw")[0] == "/etc/passwd", f"bash: {word} /etc/passw")
            elif one.value == "NUMBER":
                check(completed(script, word, "") == [], f"bash: {word}")
    return "bash completes each option, and after it those of its forms"


# Loads the completion as a shell of an administrator does, and reads what two tabs show.
ZSH = r"""
zmodload zsh/zpty || exit 77
zpty shell zsh -f -i
zpty -w shell "PS1=; stty -echo; fpath=($1 \$fpath); autoload -Uz compinit; compinit -u -d $1/dump; LISTMAX=1000"
zpty -w shell "zstyle ':completion:*' menu no; setopt no_beep; nscd() { : }; print rea''dy"
zpty -r shell line '*ready*' || exit 1
zpty -w -n shell "nscd $2"$'\t\t'
sleep $3
zpty -w shell $'\C-uprint do''ne'
zpty -r shell line '*done*'
print -r -- $line
zpty -d shell
"""


def zsh_case(where):
    if shutil.which("zsh") is None:
        return "no zsh is here"
    check(subprocess.run(["zsh", "-n", where / "_nscd"], timeout=20, check=False).returncode == 0, "zsh: the completion is no zsh")
    told = (where / "_nscd").read_text()
    for option in options():
        for word in option.words():
            check(re.search(rf"\){re.escape(word)}[+=]?\[", told), f"zsh: no {word}")
    # A busy machine may take its time.
    for seconds in ("1", "4", "10"):
        try:
            words = ["zsh", "-f", "-c", ZSH, "zsh", where, "-", seconds]
            done = subprocess.run(words, capture_output=True, timeout=40, check=False)
        except subprocess.TimeoutExpired:
            return "zsh reads its completion, which was not tried by a key, since no terminal answers here"
        if done.returncode != 0:
            return "zsh reads its completion, which was not tried by a key, since no terminal may be had here"
        shown = done.stdout.decode(errors="replace").replace("\r", " ")
        missing = [option.long for option in options() if f"--{option.long} " not in shown]
        if not missing:
            return "zsh completes each option"
    raise Fault(f"zsh: {missing} are not completed: {shown!r}")


def completions_case():
    with folder() as where:
        for shell, name in (("bash", "nscd.bash"), ("zsh", "_nscd")):
            done = subprocess.run([ROOT / "dist" / "make-completions", shell], capture_output=True, timeout=20, check=True)
            (where / name).write_bytes(done.stdout)
        return f"{bash_case(where)}; {zsh_case(where)}"


# ---- manual pages


def linted_by_man():
    if shutil.which("man") is None or shutil.which("groff") is None:
        return "man --warnings was not tried, since there is no man or no groff"
    for page in ("nscd.8", "nscd.conf.5"):
        done = subprocess.run(["man", "--warnings", "-l", MAN / page], capture_output=True, timeout=60, check=False)
        check(done.returncode == 0 and done.stderr == b"", f"man --warnings {page}: {done.stderr.decode()}")
        check(len(done.stdout) > 2000, f"man {page}: nothing is shown")
    return "man --warnings says nothing of either"


def check_first_page():
    """What a reader of the first lines has to find there, and how long the page is."""
    text = (ROOT / "README.md").read_text()
    check(len(text.split()) < 1000, f"README.md: {len(text.split())} words")
    first = "\n".join(text.splitlines()[:20])
    for word in ("**For** machines", "**Not for**", "**It never**", "make deb", "dpkg -i", "`files`", "`extrausers`", "`compat`"):
        check(word in first, f"README.md: no {word} in its first twenty lines")
    check(text.index("the daemon, in the foreground") < text.index("--replay"), "README.md: a replay before the daemon")


def manuals_case():
    check_first_page()
    for page in ("nscd.8", "nscd.conf.5"):
        text = (MAN / page).read_text()
        # It is read before an installation, too.
        check(text.count(f"version {VERSION}.") == 1, f"{page}: not one place for the version")
        check(not re.search(r"@[A-Z]+@", text), f"{page}: something is to be filled in")
    check(re.search(rf"^## {re.escape(VERSION)}\b", (ROOT / "CHANGELOG.md").read_text(), re.M), f"CHANGELOG.md: no {VERSION}")
    said = f"both pages have version {VERSION}; {linted_by_man()}"
    if shutil.which("mandoc") is None:
        return f"{said}; there is no mandoc"
    with folder() as where:
        began = time.monotonic()
        for page in ("nscd.8", "nscd.conf.5"):
            shutil.copy(MAN / page, where / page)
            done = subprocess.run(["mandoc", "-Tlint", where / page], capture_output=True, timeout=20, check=False)
            # Whether the pages of other programs are installed is no matter of these.
            lines = [line for line in done.stdout.decode().splitlines() if "referenced manual not found" not in line]
            check(not lines, f"mandoc -Tlint {page}: {lines}")
            shown = subprocess.run(["mandoc", "-Tutf8", where / page], capture_output=True, timeout=20, check=False)
            check(len(shown.stdout) > 2000, f"mandoc {page}: nothing is shown")
        check(time.monotonic() - began < 60, "mandoc takes long")
        return f"{said}; mandoc -Tlint says nothing of either"
