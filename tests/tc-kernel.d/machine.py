"""A virtual machine that runs a Debian kernel without a disk: what it needs, how it is built, and the files that it returns.

QEMU counts instructions (`-icount`). Each takes one nanosecond of the machine's time, and waiting takes no real time. So a busy host makes
the machine slow, but not late.
"""
import dataclasses
import hashlib
import lzma
import os
import re
import shutil
import struct
import subprocess
import tempfile
import threading
from collections.abc import Callable, Iterable
from pathlib import Path

HERE = Path(__file__).resolve().parent
SECONDS = 1800
# only root has the last two on its PATH
PATHS = os.environ.get("PATH", "") + ":/usr/sbin:/sbin"
# each program with its Debian packages
PACKAGES = {
    "qemu-system-x86_64": "qemu-system-x86",
    "busybox": "busybox-static",
    "dash": "dash",
    "tc": "iproute2",
    "ip": "iproute2",
    "bridge": "iproute2",
    "gcc": "gcc libc6-dev",
    "make": "make",
    "strip": "binutils",
    "lz4": "lz4",
}
KERNEL_PACKAGES = ["linux-image-cloud-amd64", "linux-headers-cloud-amd64"]
IN_THE_MACHINE = ("busybox", "dash", "tc", "ip", "bridge")
PACKED = ((b"\x02\x21\x4c\x18", "lz4 -dc"), (b"\xfd7zXZ", "xz -dc --single-stream"), (b"\x28\xb5\x2f\xfd", "zstd -dcq"), (b"\x1f\x8b", "gzip -dcq"))
COMMAND_LINE = "console=ttyS0 loglevel=2 panic=-1 mitigations=off nokaslr no_timer_check tsc=reliable reboot=t audit=0 apparmor=0"
# timers are late on `-cpu qemu64`
QEMU = "-accel tcg -icount shift=0,sleep=off -M microvm,pit=on,pic=on,rtc=on,isa-serial=on -cpu max -m 512 -smp 1 -nodefaults -no-reboot"
# a BusyBox shell would run its own `ip` instead of the one on the PATH
FIRST = """#!/tools/dash
/tools/busybox mkdir /bin /out
/tools/busybox --install -s /bin
/tools/busybox ln -sf /tools/dash /bin/sh
export PATH=/tools:/bin
mount -t proc none /proc
mount -t sysfs none /sys
mount -t devtmpfs none /dev
exec >/dev/ttyS0 2>&1
sh /main
cd /out
for file in $(find . -type f); do
    echo "@file ${file#./}"
    cat "$file"
    echo
done
echo @end
poweroff -f
"""


class Lacking(Exception):
    """Reports what is missing, and the packages that have it."""

    def __init__(self, what: list[str], packages: list[str]) -> None:
        super().__init__(", ".join(what))
        self.packages = packages


def program(name: str) -> str | None:
    return shutil.which(name, path=PATHS)


class Kernel:
    """A kernel with its modules and headers below a folder."""

    def __init__(self, top: Path, version: str) -> None:
        self.version, self.image = version, top / f"boot/vmlinuz-{version}"
        self.modules = next((it for it in (top / f"lib/modules/{version}", top / f"usr/lib/modules/{version}") if it.is_dir()), None)
        self.headers = top / f"usr/src/linux-headers-{version}"

    def is_whole(self) -> bool:
        return self.modules is not None and self.headers.is_dir()

    def unpacked(self) -> bytes:
        """Returns the kernel, unpacked by the host because the machine is slow."""
        text = self.image.read_bytes()
        at, size = struct.unpack_from("<II", text, 0x248)
        body = text[at + ((text[0x1F1] or 4) + 1) * 512 :][: size - 4]
        words = next((words for magic, words in PACKED if body.startswith(magic)), None)
        if words is None:
            raise Lacking([f"a way to unpack {self.image}"], [])
        # lz4 complains about the four octets after the end of its data
        return subprocess.run(words.split(), input=body, stdout=subprocess.PIPE, stderr=subprocess.DEVNULL, check=False).stdout

    def module(self, name: str) -> bytes | None:
        """Returns a module, or None if it is built into the kernel."""
        for path in self.modules.rglob(f"{name}.ko*"):
            return lzma.decompress(path.read_bytes()) if path.suffix == ".xz" else path.read_bytes()
        return None

    def modules_for(self, names: list[str]) -> dict[str, bytes]:
        """Returns modules and their dependencies, in an order in which they can be loaded."""
        found: dict[str, bytes] = {}
        for name in names:
            text = self.module(name) or self.module(name.replace("_", "-"))
            if text is None or name in found:
                continue
            needs = re.search(rb"\0depends=([^\0]*)\0", text)
            found |= self.modules_for([it for it in needs.group(1).decode().split(",") if it and it not in found] if needs else [])
            found[name] = text
        return found


def find_kernel(top: Path) -> Kernel | None:
    """Returns the newest kernel below a folder that has modules and headers, or None."""
    versions = [it.name.removeprefix("vmlinuz-") for it in (top / "boot").glob("vmlinuz-*")]
    kernels = [Kernel(top, it) for it in sorted(versions, key=lambda it: [int(part) for part in re.findall(r"\d+", it)])]
    return next((it for it in reversed(kernels) if it.is_whole()), None)


@dataclasses.dataclass(frozen=True)
class Around:
    """What the host has for the machine: a kernel, and the paths of programs that run in it."""

    kernel: Kernel
    programs: dict[str, str]


def packages(names: Iterable[str] = PACKAGES, has_kernel: bool = False) -> list[str]:
    """Returns the packages of programs, and those of a kernel unless there is one, each once."""
    found = dict.fromkeys(package for name in names for package in PACKAGES[name].split())
    return [*found, *([] if has_kernel else KERNEL_PACKAGES)]


def in_folder(name: str, folder: Path | None) -> str | None:
    """Returns the path of a program: in the folder if it is there, else as installed, or None."""
    places = [folder / it / name for it in ("sbin", "bin", "usr/sbin", "usr/bin")] if folder else []
    return next((str(it) for it in places if it.is_file()), None) or program(name)


def look_around(top: Path, iproute: Path | None) -> Around:
    """Returns what the host has for the machine. Raises Lacking if something is missing."""
    lacking = [name for name in PACKAGES if not program(name)]
    kernel = find_kernel(top)
    if lacking or not kernel:
        what = [*lacking, *([] if kernel else [f"kernel with modules and headers in {top}"])]
        raise Lacking(what, packages(lacking, kernel is not None))
    return Around(kernel, {name: in_folder(name, iproute) for name in IN_THE_MACHINE})


# What is built


def cache() -> Path:
    """Returns the folder for build results: in built/ of the repository, or a temporary one if that can't be written."""
    folder = HERE.parent.parent / "built/tc-kernel"
    try:
        folder.mkdir(parents=True, exist_ok=True)
        tempfile.TemporaryFile(dir=folder).close()
        return folder
    except OSError:
        return Path(tempfile.mkdtemp(prefix="tc-kernel-"))


def kept(name: str, sources: list[Path], kernel: Kernel, make: Callable[[], bytes]) -> bytes:
    """Returns what `make` builds from these sources for this kernel. Builds it only once and keeps it."""
    size = kernel.image.stat()
    stamp = hashlib.sha256(f"{name} {kernel.image} {size.st_size} {size.st_mtime_ns}".encode() + b"".join(it.read_bytes() for it in sources))
    path = cache() / f"{name}-{stamp.hexdigest()[:16]}"
    if not path.exists():
        text = make()
        half = path.with_suffix(f".{os.getpid()}")
        half.write_bytes(text)
        half.rename(path)
    return path.read_bytes()


def build_frames() -> bytes:
    with tempfile.TemporaryDirectory() as room:
        subprocess.run(["gcc", "-O2", "-Wall", "-o", f"{room}/frames", HERE / "frames.c"], check=True)
        return Path(f"{room}/frames").read_bytes()


def build_module(kernel: Kernel) -> bytes:
    """Builds the module tsnsim. The Makefile of the headers expects them below /usr, so the Makefile that it includes is used."""
    common = re.search(r"include \S*/([^/\s]+)/Makefile", (kernel.headers / "Makefile").read_text())
    makefile = kernel.headers.parent / common.group(1) / "Makefile" if common else kernel.headers / "Makefile"
    with tempfile.TemporaryDirectory() as room:
        shutil.copytree(HERE / "tsnsim", room, dirs_exist_ok=True)
        # BPF type information isn't needed, nor is the package that generates it
        words = ["make", "-C", kernel.headers, "-f", makefile, f"M={room}", "CONFIG_DEBUG_INFO_BTF_MODULES=", "modules"]
        made = subprocess.run(words, capture_output=True, text=True, check=False)
        if made.returncode != 0:
            raise Lacking([f"a module for {kernel.version}: {(made.stdout + made.stderr).strip()[-2000:]}"], [])
        subprocess.run(["strip", "--strip-debug", f"{room}/tsnsim.ko"], check=True)
        return Path(f"{room}/tsnsim.ko").read_bytes()


def built(kernel: Kernel) -> dict[str, bytes]:
    sources = sorted((HERE / "tsnsim").iterdir())
    return {
        "vmlinux": kept("vmlinux", [], kernel, kernel.unpacked),
        "frames": kept("frames", [HERE / "frames.c"], kernel, build_frames),
        "tsnsim": kept("tsnsim", sources, kernel, lambda: build_module(kernel)),
    }


# The machine


def with_libraries(path: str, name: str) -> dict[str, bytes]:
    """Returns a program under a name, and the libraries that it needs, by their paths."""
    files = {name: Path(path).read_bytes()}
    listed = subprocess.run(["ldd", path], capture_output=True, text=True, check=False).stdout
    return files | {it.lstrip("/"): Path(it).read_bytes() for it in re.findall(r"(/lib\S+)", listed)}


def archive(files: dict[str, bytes]) -> bytes:
    """Returns an archive in the format of `cpio -H newc`, with the files and their folders. Each file is executable."""
    folders = {str(above) for name in files for above in Path(name).parents if str(above) != "."}
    folders |= {"proc", "sys", "dev", "tmp", "run", "run/netns"}
    entries = [(it, 0o40755, b"") for it in sorted(folders)] + [(it, 0o100755, text) for it, text in sorted(files.items())]
    parts = []
    for number, (name, mode, text) in enumerate([*entries, ("TRAILER!!!", 0, b"")], 1):
        fields = (number, mode, 0, 0, 1, 0, len(text), 0, 0, 0, 0, len(name) + 1, 0)
        head = b"070701" + "".join(f"{it:08x}" for it in fields).encode() + name.encode() + b"\0"
        parts += [head, b"\0" * (-len(head) % 4), text, b"\0" * (-len(text) % 4)]
    return b"".join(parts)


def inside(around: Around, parts: dict[str, bytes], names: list[str]) -> tuple[dict[str, bytes], list[str]]:
    """Returns the machine's programs and modules, and the commands that load the modules."""
    files: dict[str, bytes] = {}
    for name, path in around.programs.items():
        files |= with_libraries(path, f"tools/{name}")
    modules = around.kernel.modules_for(names)
    files |= {f"lib/{name}.ko": text for name, text in modules.items()}
    files |= {"tools/frames": parts["frames"], "lib/tsnsim.ko": parts["tsnsim"], "init": FIRST.encode()}
    return files, [f"insmod /lib/{name}.ko" for name in [*modules, "tsnsim"]]


def files_in(said: str) -> dict[str, str]:
    """Returns the files that the machine wrote, by name."""
    found: dict[str, list[str]] = {}
    at: list[str] = []
    for line in said.splitlines():
        if line.startswith("@file "):
            at = found.setdefault(line[6:], [])
        elif line.startswith("@end"):
            at = []
        else:
            at.append(line)
    return {name: "\n".join(lines).strip("\n") for name, lines in found.items()}


class Ended(Exception):
    """Reports that the machine stopped too early or never, with the end of its output."""


def run(around: Around, names: list[str], files: dict[str, str], main: list[str], has_ipv6: bool) -> dict[str, str]:
    """Boots a kernel, loads modules, runs the commands `main` with `sh`, and returns the files that they wrote below /out.

    With `has_ipv6`, namespaces can have IPv6, but it is off by default. Raises Ended if the machine doesn't reach its end within 30 minutes.
    """
    parts = built(around.kernel)
    held, loading = inside(around, parts, names)
    held |= {name: text.encode() for name, text in files.items()}
    held["main"] = "\n".join([*loading, "frames tai 37", *main, ""]).encode()
    with tempfile.TemporaryDirectory() as room:
        image, disk = Path(room, "vmlinux"), Path(room, "memory")
        image.write_bytes(parts["vmlinux"])
        disk.write_bytes(archive(held))
        words = [program("qemu-system-x86_64"), *QEMU.split(), "-display", "none", "-serial", "stdio", "-kernel", str(image), "-initrd", str(disk)]
        started = subprocess.Popen([*words, "-append", f"{COMMAND_LINE} {'ipv6.disable_ipv6=1' if has_ipv6 else 'ipv6.disable=1'}"], stdin=subprocess.DEVNULL, stdout=subprocess.PIPE, stderr=subprocess.STDOUT)
        late = threading.Timer(SECONDS, started.kill)
        late.start()
        try:
            said = started.communicate()[0].decode("utf-8", "replace").replace("\r", "")
        finally:
            late.cancel()
            started.kill()
    if "\n@end" not in said:
        raise Ended(said[-3000:].strip())
    return files_in(said)
