"""Machines of QEMU's for the sessions of this folder: what they are made of, and what their consoles tell.

They have a kernel and tools of Debian's packages, which are unpacked in a folder of its own, PEERS_KEEP. PEERS_ACCEL is
QEMU's accelerator, tcg if it isn't set; PEERS_LIMIT is how many seconds a machine's sessions may take, 300 if it isn't
set; PEERS_CONSOLES is a folder that gets what the machines printed, and the program's own words.
"""
import os
import re
import shutil
import signal
import socket
import subprocess
import sys
import tempfile
import threading
import time
from pathlib import Path

HERE = Path(__file__).resolve().parent
TOP = HERE.parent.parent
PROGRAM = TOP / "crates/usbgate_cli/out/usbgate_cli"
# What the machines need: packages, and the kernel's modules.
TOOLS = {"qemu-system-x86_64": "qemu-system-x86", "cpio": "cpio", "depmod": "kmod", "cc": "gcc"}
PACKAGES = ["usbip", "usbredirect", "libusbredirhost1", "libusbredirparser1", "busybox-static", "util-linux"]
MODULES = ["virtio_pci", "virtio_net", "xhci-pci", "ehci-pci", "usb-storage", "sd_mod", "minix", "vhci-hcd"]
LIMIT = int(os.environ.get("PEERS_LIMIT", "300"))
CONSOLES = os.environ.get("PEERS_CONSOLES")

outcomes = []
# every process that was started, which ends with this one
started = []
# where the program's own words go
words = open(Path(CONSOLES) / "words", "w") if CONSOLES else subprocess.DEVNULL


def note(peer, line):
    """A line of a machine's console: a step of a session, and what came of it."""
    step = re.search(r"@@ (ok|FAILED) ([a-z]+): ?(.*)", line)
    if step:
        outcome, device, rest = step.groups()
        outcomes.append(outcome)
        print("%-7s %-22s %-9s %s" % (outcome, peer, device, rest), flush=True)


def expect(peer, device, step, wanted, seen):
    note(peer, "@@ %s %s: %s: %s" % ("ok" if wanted == seen else "FAILED", device, step, seen))


# ---- what the machines are made of

def run(*words, **how):
    return subprocess.run([str(word) for word in words], check=True, stdout=subprocess.PIPE, text=True, **how).stdout


def install():
    missing = [package for tool, package in TOOLS.items() if not shutil.which(tool)]
    if missing:
        run("apt-get", "update", stderr=subprocess.DEVNULL)
        run("apt-get", "install", "-y", "--no-install-recommends", *missing, stderr=subprocess.DEVNULL)


def fetch(folder):
    """Unpacks the packages of the machines into a folder, which keeps them for the next time."""
    root = folder / "packages"
    versions_file = root / "whole"
    if versions_file.exists() and all(package in versions_file.read_text() for package in PACKAGES):
        return root
    shutil.rmtree(root, ignore_errors=True)
    root.mkdir(parents=True)
    kernel = re.search(r"Depends: (linux-image-\S+)", run("apt-cache", "depends", "linux-image-amd64")).group(1)
    run("apt-get", "download", kernel, *PACKAGES, cwd=root, stderr=subprocess.DEVNULL)
    for package in root.glob("*.deb"):
        run("dpkg-deb", "-x", package, root)
    versions = [run("dpkg-deb", "-f", package, "Package", "Version").split() for package in sorted(root.glob("*.deb"))]
    versions_file.write_text("".join("%s %s\n" % (fields[1], fields[3]) for fields in versions))
    return root


def libraries(program, root):
    """The libraries that a program of the packages asks for, from the packages and from this system."""
    where = dict(os.environ, LD_LIBRARY_PATH=str(root / "usr/lib/x86_64-linux-gnu"))
    told = run("ldd", program, env=where)
    return sorted(set(re.findall(r"(/\S+) \(0x", told)))


def packed(names, folder):
    """The files of a folder that lines name, as a part of an image."""
    words = ["cpio", "-o", "-H", "newc", "--quiet"]
    return subprocess.run(words, input=names.encode(), stdout=subprocess.PIPE, cwd=folder, check=True).stdout


def make_image(root, folder):
    """The kernel, and an image of a file system in memory with the tools and the modules."""
    kernel = next((root / "boot").glob("vmlinuz-*"))
    version = kernel.name[len("vmlinuz-"):]
    image = folder / "image"
    shutil.rmtree(image, ignore_errors=True)
    for name in ("bin", "dev", "proc", "sys", "tmp", "run", "var", "usr/bin", "lib64", "usr/share/hwdata"):
        (image / name).mkdir(parents=True)
    shutil.copy(next(root.glob("**/bin/busybox")), image / "bin/busybox")
    shutil.copy(HERE / "guest.sh", image / "init")
    run("cc", "-static", "-O1", "-o", image / "usr/bin/usbfs", HERE / "usbfs.c")
    for program in (root / "usr/sbin/usbip", root / "usr/bin/usbredirect", next(root.glob("**/sbin/mkfs.minix"))):
        shutil.copy(program, image / "usr/bin")
        for library in libraries(program, root):
            target = image / ("lib64" if "ld-linux" in library else "lib") / Path(library).name
            target.parent.mkdir(exist_ok=True)
            shutil.copy(library, target)
    for place in image.rglob("*"):
        if place.is_file():
            place.chmod(0o755)
    modules = root / "lib/modules" / version
    if not (modules / "modules.dep").exists():
        run("depmod", "-b", root, version)
    depends = dict(line.split(":", 1) for line in (modules / "modules.dep").read_text().splitlines())
    files = {Path(name).name.split(".ko")[0].replace("_", "-"): name for name in depends}
    wanted = set()
    for module in MODULES:
        name = files.get(module.replace("_", "-"))
        if name:
            wanted |= {name, *depends[name].split()}
    for name in wanted:
        target = image / "lib/modules" / version / name
        target.parent.mkdir(parents=True, exist_ok=True)
        shutil.copy(modules / name, target)
    run("depmod", "-b", image, version, stderr=subprocess.DEVNULL)
    names = "\n".join(str(path.relative_to(image)) for path in sorted(image.rglob("*")))
    (folder / "base.cpio").write_bytes(packed(names, image))
    return kernel, version


# ---- machines

def free_port():
    with socket.socket() as probe:
        probe.bind(("127.0.0.1", 0))
        return probe.getsockname()[1]


class Machine:
    """A QEMU without a disk of its own, whose console is read to its end."""

    def __init__(self, peer, kernel, folder, role, devices, words=(), loss="keep"):
        self.peer, self.marks, self.ended = peer, [], threading.Event()
        self.folder = Path(tempfile.mkdtemp(dir=folder))
        (self.folder / "session").write_text('ROLE=%s\nLOSS=%s\nDEVICES="%s"\n' % (
            role, loss, "\n".join("%s %d %s %s" % device for device in devices)))
        (self.folder / "image").write_bytes((folder / "base.cpio").read_bytes() + packed("session", self.folder))
        self.monitor = self.folder / "monitor"
        self.process = subprocess.Popen(
            ["qemu-system-x86_64", "-machine", "q35,accel=" + os.environ.get("PEERS_ACCEL", "tcg"), "-cpu", "max",
             "-m", "512", "-display", "none", "-no-reboot", "-nodefaults", "-serial", "stdio",
             "-monitor", "unix:%s,server=on,wait=off" % self.monitor, "-kernel", str(kernel),
             "-initrd", str(self.folder / "image"), "-append", "console=ttyS0 quiet panic=-1 rdinit=/init", *words],
            stdin=subprocess.DEVNULL, stdout=subprocess.PIPE, stderr=subprocess.STDOUT)
        started.append(self.process)
        threading.Thread(target=self.listen, daemon=True).start()

    def listen(self):
        with open(self.folder / "console", "w") as log:
            for data in self.process.stdout:
                line = data.decode(errors="replace").rstrip()
                print(line, file=log, flush=True)
                note(self.peer, line)
                found = re.search(r"@@ (ready|end|key|kill me|kill the host|pull \w+|plug \w+)$", line)
                if found:
                    self.marks.append(found.group(1))
        self.ended.set()

    def awaits(self, mark, limit=LIMIT):
        deadline = time.monotonic() + limit
        while mark not in self.marks:
            if time.monotonic() > deadline or self.ended.is_set():
                return mark in self.marks
            time.sleep(0.1)
        return True

    def tell(self, words):
        with socket.socket(socket.AF_UNIX) as link:
            link.connect(str(self.monitor))
            link.sendall(words.encode() + b"\n")
            time.sleep(0.2)

    def stop(self, how=signal.SIGTERM):
        if self.process.poll() is None:
            self.process.send_signal(how)
        self.process.wait(30)


def play(machine, answers=None):
    """Lets a machine's session go to its end. For each mark on its console that `answers` knows, that is done."""
    heard, deadline = 0, time.monotonic() + LIMIT
    while "end" not in machine.marks and not machine.ended.is_set() and time.monotonic() < deadline:
        for mark in machine.marks[heard:]:
            heard += 1
            (answers or {}).get(mark, lambda: None)()
        time.sleep(0.1)
    if "end" not in machine.marks:
        note(machine.peer, "@@ FAILED session: didn't end")
    machine.stop()


def kept():
    """The folder that keeps what was fetched."""
    return Path(os.environ.get("PEERS_KEEP", Path(tempfile.gettempdir()) / "usbgate-peers"))


def chosen_program():
    """That of the script's word, else the proved one, which is built where it isn't yet."""
    if len(sys.argv) > 1:
        return Path(sys.argv[1]).resolve()
    run(TOP / "usbgate", "prove")
    return PROGRAM


def summary(begun):
    """Prints how many steps were as they should be, and gives the exit code."""
    failed = outcomes.count("FAILED")
    print("%d steps as they should be, %d not; %d seconds" % (
        len(outcomes) - failed, failed, time.monotonic() - begun))
    return 1 if failed or not outcomes else 0


def main(limit, sessions):
    """Plays sessions, each with the kernel, a folder and the program."""
    begun = time.monotonic()
    signal.signal(signal.SIGTERM, lambda *_: sys.exit("ended from outside"))
    signal.signal(signal.SIGALRM, lambda *_: sys.exit("not done within %d seconds" % limit))
    signal.alarm(limit)
    install()
    root = fetch(kept())
    program = chosen_program()
    with tempfile.TemporaryDirectory(dir=kept()) as name:
        folder = Path(name)
        kernel, version = make_image(root, folder)
        print("kernel %s; %s; %s" % (version, run("qemu-system-x86_64", "--version").splitlines()[0],
                                     ", ".join((root / "whole").read_text().splitlines())), flush=True)
        try:
            for session in sessions:
                session(kernel, folder, program)
        finally:
            for process in started:
                process.kill()
            if CONSOLES:
                for number, console in enumerate(sorted(folder.glob("*/console"), key=os.path.getmtime)):
                    shutil.copy(console, Path(CONSOLES) / ("console%d" % number))
    return summary(begun)
