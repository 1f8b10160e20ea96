#!/usr/bin/env python3
"""Checks ./package.sh: the content of the package, and its routers in a clean root.

    tools/package.py [CHECK..]              makes all checks, or these
    tools/package.py --wrongs [NAME..]      checks that they fail over wrong scripts and units

The clean root is a minimal Debian without the toolchain. debootstrap makes it once, which takes
some minutes and needs the network. It is kept in the folder of caches (XDG_CACHE_HOME, or ~/.cache)
and not in the repository, because `rt ci` refuses symbolic links there. The last check boots it in
a container (systemd-nspawn), so that a real systemd runs the routers. Both need root. A check whose
tools are missing is left out, which a line says. The program is the proved one, or the one that
PROGRAM names.
"""

from __future__ import annotations

import os
import re
import shutil
import sys

sys.dont_write_bytecode = True
sys.path.insert(0, f"{os.path.dirname(os.path.realpath(__file__))}/lib")
from install import FILES, FILES_OF_CLICKCTL, MAX_EXPOSURE
from installing import Edit, LeftOut, Tree, Wrong, has, main_of, ran, same
from programs import TOP

CLEAN = f"{os.environ.get('XDG_CACHE_HOME') or os.path.expanduser('~/.cache')}/wuthkeam/clean_root"
INCLUDED = "systemd,systemd-sysv,dbus,python3"
# The files that each package of Debian has.
PAPERS = {"share/doc/wuthkeam/copyright": "644", "share/doc/wuthkeam/changelog.gz": "644", "share/lintian/overrides/wuthkeam": "644"}
GUEST = f"{TOP}/tools/lib/package_guest.sh"
# A unit of the clean root that runs the script of a boot, and then ends the container.
UNIT = """[Unit]
After=multi-user.target
[Service]
Type=oneshot
ExecStart=/bin/sh -c 'bash /shared/package_guest.sh $(cat /shared/what) > /shared/out 2>&1'
ExecStopPost=/bin/systemctl --no-block poweroff
"""
# Mounts the clean root below a temporary upper layer, so that it stays clean, and runs a command.
MOUNTED = 'mount -t overlay overlay -o "lowerdir=$1,upperdir=$2/upper,workdir=$2/work" "$2/root" && shift 2 && exec "$@"'
LINE = "FromDevice(a) -> c :: Counter -> q :: Queue(1000) -> ToDevice(b);"


def listed(*names: str) -> str:
    """Returns the answer to READ list of a router with these elements."""
    return f"200 Read handler 'list' OKDATA {len(str(len(names))) + 1 + sum(len(it) + 1 for it in names)}{len(names)}{''.join(names)}200 Goodbye!"


def packed(tree: Tree, *words: str) -> str:
    """Makes the package and returns its path."""
    if not shutil.which("dpkg-deb"):
        raise LeftOut("there is no dpkg-deb")
    did = tree.run("./package.sh", *words, f"{tree.folder}/packages")
    if did.status:
        raise Wrong(f"package.sh ended with status {did.status}: {did.err}")
    return did.out.strip()


def contents(tree: Tree) -> None:
    """Checks the files of the package, with their modes and owners, and the program's bytes."""
    package = packed(tree)
    wanted = {**FILES, **(FILES_OF_CLICKCTL if tree.has_clients else {}), **PAPERS}
    wanted = {f"./usr/{it}{'.gz' if '/man/' in it else ''}": mode for it, mode in wanted.items()}
    came = {}
    for line in ran("dpkg-deb", "--contents", package).out.splitlines():
        mode, owner, _, _, _, name = line.split(maxsplit=5)
        same("root/root", owner, f"the owner of {name}")
        if mode[0] == "l":
            name, target = name.split(" -> ")
            came[name] = f"-> {target}"
        elif mode[0] != "d":
            came[name] = "".join(str(sum(4 >> at for at in range(3) if triple[at] != "-")) for triple in re.findall("...", mode[1:]))
    same(wanted, came, "the files of the package")
    unpacked = f"{tree.folder}/unpacked"
    ran("dpkg-deb", "--extract", package, unpacked)
    with open(f"{unpacked}/usr/bin/click_prog", "rb") as it:
        same(True, it.read() == tree.programs[""], "the program is packed unchanged")
    same(True, os.path.isdir(f"{unpacked}/etc/click"), "the folder of the configurations")


def field(package: str, name: str) -> str:
    return ran("dpkg-deb", "--field", package, name).out.strip()


def control(tree: Tree) -> None:
    """Checks what the package says of itself, and that an unproved one says that it is unproved."""
    package, unproved = packed(tree), packed(tree, "--quick")
    same("wuthkeam", field(package, "Package"), "the name")
    if not re.fullmatch(r"1\+\d{8}\.\d{4}", field(package, "Version")):
        raise Wrong(f"the version is {field(package, 'Version')}")
    same(f"{field(package, 'Version')}~unproved", field(unproved, "Version"), "the version of an unproved package")
    same(f"{tree.folder}/packages/wuthkeam_{field(package, 'Version')}_{field(package, 'Architecture')}.deb", package, "the path")
    same((False, True), tuple("NOT PROVED" in field(it, "Description") for it in (package, unproved)), "which of them says that it is not proved")
    same(tree.has_clients, "python3" in field(package, "Depends"), "whether it depends on Python")
    if not shutil.which("objdump"):
        raise LeftOut("there is no objdump to see which C library the program needs (apt-get install binutils)")
    names = re.findall(r"\bGLIBC_([\d.]+)", ran("objdump", "-p", f"{tree.top}/crates/click_prog/out/click_prog").out)
    newest = max(names, key=lambda it: [int(part) for part in it.split(".")])
    has(field(package, "Depends"), f"libc6 (>= {newest})", "the dependencies")


def repeated(tree: Tree) -> None:
    """Checks that the same sources give the same package."""
    found = []
    for _ in range(2):
        with open(packed(tree), "rb") as it:
            found.append(it.read())
    same(True, found[0] == found[1], "two packages are equal")


def refused(tree: Tree) -> None:
    """Checks that wrong words, and a program that is not proved, give no package."""
    for words, status in ((["--fast"], 2), (["a", "b"], 2), (["--quick", "--quick"], 2)):
        same((status, ""), tree.run("./package.sh", *words)[:2], f"./package.sh {words}")
    tree.write("crates/click_prog/src/main.rt", b"// changed\n")
    try:
        did = tree.run("./package.sh", f"{tree.folder}/none")
    finally:
        tree.write("crates/click_prog/src/main.rt", b"\n")
    same((5, ""), (did.status, did.out), "a package of a program that is not proved")
    same([], os.listdir(f"{tree.folder}/none"), "what it left")


def linted(tree: Tree) -> None:
    """Checks that lintian finds no error."""
    if not shutil.which("lintian"):
        raise LeftOut("there is no lintian (apt-get install lintian)")
    did = ran("lintian", "--allow-root", "--fail-on", "error", packed(tree))
    if did.status or re.search("^E:", did.out, re.M):
        raise Wrong(f"lintian ended with status {did.status}: {did.out}{did.err}")


# ---- A clean root


def make_clean_root() -> None:
    """Makes the clean root, unless there is one. Raises LeftOut if it cannot be made."""
    for needed in ("unshare", "debootstrap"):
        if not shutil.which(needed):
            raise LeftOut(f"there is no {needed} (apt-get install {needed})")
    if os.geteuid():
        raise LeftOut("a clean root needs root")
    if os.path.exists(CLEAN):
        return
    os.makedirs(os.path.dirname(CLEAN), exist_ok=True)
    new = f"{CLEAN}.{os.getpid()}"
    did = ran("debootstrap", "--variant=minbase", f"--include={INCLUDED}", "bookworm", new, seconds=1500)
    if did.status:
        shutil.rmtree(new, ignore_errors=True)
        raise LeftOut(f"debootstrap makes no clean root: {did.out.strip().splitlines()[-1:]}")
    # A machine without an identity gets one at its first boot.
    open(f"{new}/etc/machine-id", "w", encoding="ascii").close()
    with open(f"{new}/etc/systemd/system/guest.service", "w", encoding="ascii") as it:
        it.write(UNIT)
    os.makedirs(f"{new}/etc/systemd/system/default.target.wants", exist_ok=True)
    os.symlink("../guest.service", f"{new}/etc/systemd/system/default.target.wants/guest.service")
    os.makedirs(f"{new}/shared", exist_ok=True)
    os.rename(new, CLEAN)


def layers_of(tree: Tree) -> str:
    """Returns a folder with new layers over the clean root, and a shared folder with the package."""
    make_clean_root()
    layers = f"{tree.folder}/layers"
    shutil.rmtree(layers, ignore_errors=True)
    for name in ("upper", "work", "root", "shared"):
        os.makedirs(f"{layers}/{name}")
    shutil.copy(packed(tree), f"{layers}/shared/wuthkeam.deb")
    shutil.copy(GUEST, f"{layers}/shared/package_guest.sh")
    return layers


def seen_in(text: str) -> dict[str, str]:
    return dict(line.split(": ", 1) for line in text.splitlines() if ": " in line)


def expect(wanted: dict[str, str], seen: dict[str, str], text: str) -> None:
    """Checks that what was seen in the clean root is what is wanted."""
    for name, value in wanted.items():
        if seen.get(name) != value:
            raise Wrong(f"{name}: wanted {value!r}, came {seen.get(name)!r}, in: {text[-1500:]}")


INSTALLED = {"toolchain": "none", "installed": "0", "version": "click_prog 1", "folder": "755 root"}


def in_clean_root(tree: Tree) -> None:
    """Checks that the package runs in a clean root, without systemd, and is removed completely."""
    layers = layers_of(tree)
    inside = 'mount --rbind "$1/shared" "$1/root/shared" && mount -t proc proc "$1/root/proc" && exec chroot "$1/root" bash /shared/package_guest.sh chroot'
    own = ["unshare", "--mount", "--net", "--pid", "--fork", "--kill-child", "bash", "-c", MOUNTED, "bash", CLEAN, layers]
    did = ran(*own, "bash", "-c", f"python3 -c {LOOPBACK!r}; {inside}", "bash", layers)
    if "mount: " in did.err and not did.out:
        raise LeftOut(f"no root can be mounted here: {did.err.strip()}")
    wanted = {**INSTALLED, "waited": "0", "reloaded": "0", "list": listed("Idle@1", "new", "Discard@3"), "removed": "0"}
    wanted |= {"left": "/etc/click", "kept": "line.click line.conf"}
    expect(wanted, seen_in(did.out), did.out + did.err)


# Sets the loopback device up: SIOCSIFFLAGS (0x8914) with IFF_UP and IFF_RUNNING (0x41).
LOOPBACK = "import fcntl, socket, struct; fcntl.ioctl(socket.socket(), 0x8914, struct.pack('16sh14x', b'lo', 0x41))"


def booted(layers: str, what: str) -> str:
    """Boots the clean root in a container, runs its script, and returns what it printed."""
    with open(f"{layers}/shared/what", "w", encoding="ascii") as it:
        it.write(what)
    nspawn = ["systemd-nspawn", "--quiet", "-D", f"{layers}/root", f"--bind={layers}/shared:/shared", "--private-network", "--register=no", "--keep-unit", "--console=pipe", "-b"]
    own = ["unshare", "--mount", "bash", "-c", MOUNTED, "bash", CLEAN, layers]
    did = ran("timeout", "400", *own, *nspawn, env={**os.environ, "SYSTEMD_NSPAWN_UNIFIED_HIERARCHY": "1"})
    out = f"{layers}/shared/out"
    if not os.path.exists(out):
        raise LeftOut(f"systemd does not boot in a container here: {did.err.strip()[-300:]}")
    with open(out, encoding="utf-8", errors="replace") as it:
        text = it.read()
    os.remove(out)
    return text


def reloaded(name: str, faults: int) -> dict[str, str]:
    """Returns what is seen of two reloads, after which the journal has this number of faults."""
    elements = listed("Idle@1", name, "Discard@3")
    wanted = {"reloaded": "0", "list": elements, "refused": "1", "fault": str(faults), "logged": str(faults), "unchanged": elements, "process": "same active"}
    return {f"{name} {it}": value for it, value in wanted.items()}


def local(tree: Tree) -> None:
    """Checks that a real systemd finds and runs what ./install.sh installs, in two prefixes."""
    if not shutil.which("systemd-nspawn"):
        raise LeftOut("there is no systemd-nspawn (apt-get install systemd-container)")
    layers = layers_of(tree)
    for words in (["/opt/a"], []):
        tree.install(*words)
        shutil.copytree(tree.dest, f"{layers}/upper", symlinks=True, dirs_exist_ok=True)
    text = booted(layers, "local")
    wanted = {"started": "0", "program": "/usr/local/bin/click_prog", **reloaded("local", 1)}
    wanted |= {"unknown": "5", "linked": "0", "elsewhere": "0 /opt/a/bin/click_prog"}
    expect(wanted, seen_in(text), text)


def with_systemd(tree: Tree) -> None:
    """Checks that a real systemd starts, reloads, restarts and stops routers of the package."""
    if not shutil.which("systemd-nspawn"):
        raise LeftOut("there is no systemd-nspawn (apt-get install systemd-container)")
    layers = layers_of(tree)
    text = booted(layers, "boot")
    seen = seen_in(text)
    wanted = {**INSTALLED, "started": "0", "program": "/usr/bin/click_prog", "user": "own", "root": "ro"}
    wanted |= {"rights": "CapEff: 0000000000000000 CapBnd: 0000000000000000 NoNewPrivs: 1 Seccomp: 2 ", "config": f"{LINE}200 Goodbye!"[-70:]}
    wanted |= {**reloaded("one", 1), **reloaded("two", 2), "back": f"other active {listed('Idle@1', 'back', 'Discard@3')}", "restarts": "NRestarts=1", "limit": "none", "own_limit": "MALLOC_MMAP_THRESHOLD_=131072", "long": f"0 {listed('Idle@1', 'long', 'Discard@3')}"}
    wanted |= {"bad": "1 failed 0 1", "missing": "1 1", "second": "1 4", "enabled": "0"}
    expect(wanted, seen, text)
    if float(seen["sandbox"]) >= MAX_EXPOSURE:
        raise Wrong(f"the exposure is {seen['sandbox']}")
    text = booted(layers, "again")
    wanted = {"booted": f"active {listed('Idle@1', 'boot', 'Discard@3')}", "upgraded": "0 same", "restarted": "0 other", "removed": "0 inactive 644"}
    expect(wanted, seen_in(text), text)


CHECKS = {
    "the files of the package": contents,
    "what the package says of itself": control,
    "the same sources give the same package": repeated,
    "what gives no package": refused,
    "lintian": linted,
    "the package in a clean root": in_clean_root,
    "the package with systemd": with_systemd,
    "an installation with systemd": local,
}

WRONGS = {
    "stripped": Edit("the files of the package", "package.sh", 'find "$root/usr/share/man"', 'truncate -s -1 "$root/usr/bin/click_prog"; find "$root/usr/share/man"'),
    "own-user": Edit("the files of the package", "package.sh", "--root-owner-group ", "--no-check "),
    "pages-as-text": Edit("the files of the package", "package.sh", "-exec gzip -9n {} +", "-print > /dev/null"),
    "unproved-is-proved": Edit("what the package says of itself", "package.sh", "unproved='~unproved'", "unproved=''"),
    "any-libc": Edit("what the package says of itself", "package.sh", "sort -uV | tail", "sort -uV | head"),
    "time-of-day": Edit("the same sources give the same package", "package.sh", 'seconds=$(changed)', "seconds=$(date +%s%N | cut -c 1-11 | cut -c 2-)"),
    "any-word": Edit("what gives no package", "package.sh", "1[!-]*", "1*"),
    "no-copyright": Edit("lintian", "package.sh", 'cat > "$doc/copyright"', "cat > /dev/null"),
    "program-elsewhere": Edit("the package in a clean root", "service/clickd.sh", 'bin=$(cd "$(dirname "$(readlink -f "$0")")/../../bin" && pwd)', "bin=/usr/local/bin"),
    "left-behind": Edit("the package in a clean root", "package.sh", "if [ -d /run/systemd/system ]; then systemctl daemon-reload; fi", "touch /usr/share/click_seen"),
    "unit-elsewhere": Edit("an installation with systemd", "install.sh", "644 lib/systemd/system/click@.service", "644 share/systemd/click@.service"),
    "no-executable": Edit("the package with systemd", "service/click@.service", "MemoryDenyWriteExecute=yes", "NoExecPaths=/usr/bin"),
    "no-sockets": Edit("the package with systemd", "service/click@.service", "RestrictAddressFamilies=AF_INET", "RestrictAddressFamilies=AF_UNIX"),
    "runs-as-root": Edit("the package with systemd", "service/click@.service", "DynamicUser=yes", "User=root"),
    "never-restarts": Edit("the package with systemd", "service/click@.service", "Restart=on-failure", "Restart=no"),
    "restarts-faults": Edit("the package with systemd", "service/click@.service", "RestartPreventExitStatus=1 2", "RestartPreventExitStatus=2"),
    "no-reload": Edit("the package with systemd", "service/click@.service", "ExecReload=@libexec@/clickd reload", "ExecReload=/bin/true"),
    "ignored-reload": Edit("the package with systemd", "service/click@.service", "ExecReload=", "ExecReload=-"),
    "no-wait": Edit("the package with systemd", "service/click@.service", "ExecStartPost=", "#"),
    "no-boot": Edit("the package with systemd", "service/click@.service", "WantedBy=multi-user.target", "WantedBy=rescue.target"),
    "restarts-at-upgrades": Edit("the package with systemd", "package.sh", "then systemctl daemon-reload; fi", "then systemctl daemon-reload; systemctl try-restart 'click@*'; fi"),
    "goes-on-without-files": Edit("the package with systemd", "package.sh", "systemctl stop 'click@*.service'", "true"),
}

if __name__ == "__main__":
    sys.exit(main_of(__file__, CHECKS, WRONGS))
