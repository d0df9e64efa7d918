"""The trials of clients/try: how each client is built and run, and what it has to print."""
import importlib.util
import os
import re
import shutil
import subprocess
import sys
from pathlib import Path

TOP = Path(__file__).resolve().parent.parent
CLIENTS = TOP / "clients"
FILES = [str(TOP / "sample" / name) for name in ("channel.txt", "keys.txt")]
GOOD = [str(TOP / "sample" / f"block{i}.blk") for i in range(6)]
# a file that is no block, and one out of turn
BAD = [FILES[0], GOOD[1]]
EVERY_FLAG = str(TOP / "sample" / "every_flag.blk")
C_FLAGS = ["-O2", "-std=c11", "-Wall", "-Wextra", "-Werror", "-fno-builtin", f"-I{TOP / 'include'}"]


def accepted_lines():
    """The sample's lines, as README.md prints them, and those of the bad files."""
    page = (TOP / "README.md").read_text()
    lines = [line for line in page.splitlines() if re.match("accepted [0-9]", line)]
    return "\n".join([*lines, "refused 7 C1 B1", "refused 8 C2 want 6 got 1", ""])


def reason_lines():
    """Those of the block with every flag, as the guide prints them."""
    page = (TOP / "docs" / "guide.md").read_text()
    return re.search(r"^block 6 .*?(?=^```)", page, re.M | re.S)[0]


def ran(words, **more):
    return subprocess.run([str(word) for word in words], capture_output=True, text=True, timeout=600, **more)


def is_there(need):
    """Whether there is such a command, or, after `python:`, such a Python package."""
    kind, _, name = need.rpartition(":")
    return bool(importlib.util.find_spec(name) if kind == "python" else shutil.which(name))


class Trial:
    """One client: the commands that are needed, how it is built and run, and what it prints and ends with."""

    def __init__(self, name, needs, build, run, env=None, folder=None, lines="", status=0):
        self.name, self.needs, self.build, self.run, self.env, self.folder = name, needs, build, run, env or {}, folder
        self.lines, self.status = lines, status

    def is_possible(self):
        return all(map(is_there, self.needs.split()))

    def fault(self):
        """What it did wrong, or none."""
        try:
            return self.fault_in_time()
        except subprocess.TimeoutExpired as late:
            return f"not over after {late.timeout} s: {' '.join(map(str, late.cmd))}"

    def fault_in_time(self):
        env = {**os.environ, **self.env}
        for words in self.build:
            built = ran(words, env=env, cwd=self.folder)
            if built.returncode:
                return f"not built: {(built.stderr or built.stdout)[-2000:]}"
        tried = ran(self.run, env=env)
        if (tried.stdout, tried.returncode) != (self.lines, self.status):
            return f"status {tried.returncode}, printed\n{tried.stdout}{tried.stderr}"
        return None


class Trials:
    """All of them, over the archives of the folder `lib`. What they build stands in the folder `work`."""

    def __init__(self, lib, work):
        self.lib, self.work, self.archives = lib, work, [lib / "libfabcommit_c.a", lib / "liblibc_c.a"]
        self.blocks, self.explained = [*FILES, *GOOD, *BAD], [*FILES, *GOOD, EVERY_FLAG]
        self.run, self.explain = {"lines": accepted_lines(), "status": 1}, {"lines": reason_lines()}
        self.all_good = {"lines": "".join(line for line in accepted_lines().splitlines(True) if line.startswith("accepted"))}

    def all(self):
        return [*self.of_c(), *self.installed(), *self.of_python(), *self.of_rust(), *self.of_go()]

    def of_c(self):
        work = self.work
        c = lambda name: ["cc", *C_FLAGS, "-pthread", CLIENTS / "c" / f"{name}.c", *self.archives, "-o", work / name]
        valgrind = ["valgrind", "--quiet", "--leak-check=full", "--error-exitcode=9"]
        # otherwise one thread may run for minutes before the others
        fair = "--fair-sched=yes"
        drd = ["valgrind", "--quiet", "--tool=drd", fair, "--error-exitcode=9"]
        share = [work / "share", *FILES, *GOOD]
        return [
            Trial("fits", "cc", [c("fits")], [work / "fits"]),
            Trial("memory", "cc", [c("memory")], [work / "memory", *FILES, *GOOD]),
            Trial("hostile", "cc", [c("hostile")], [work / "hostile", *FILES, *GOOD]),
            Trial("hostile, by valgrind", "cc valgrind", [c("hostile")], [*valgrind, work / "hostile", *FILES, *GOOD]),
            Trial("C", "cc", [c("run")], [work / "run", *self.blocks], **self.run),
            Trial("C, on threads", "cc", [c("share")], share, **self.all_good),
            Trial("C, on threads, by valgrind", "cc valgrind", [c("share")], [*valgrind, fair, *share], **self.all_good),
            Trial("C, on threads, by drd", "cc valgrind", [c("share")], [*drd, *share], **self.all_good),
            Trial("C, which explains", "cc", [c("explain")], [work / "explain", *self.explained], **self.explain),
        ]

    def install(self, *words):
        return [CLIENTS / "install", "--archive", self.lib, *words]

    def in_prefix(self, folder):
        """A prefix of its own, as it is installed there; and the environment in which that is found."""
        prefix = self.work / folder
        env = {"PKG_CONFIG_PATH": str(prefix / "lib" / "pkgconfig"), "LD_LIBRARY_PATH": str(prefix / "lib")}
        return self.install("--destdir", "", "--prefix", prefix), env

    def installed(self):
        """For C programs: below a DESTDIR, linked as pkg-config says to the shared object or the archive, and taken away."""
        staged, run = self.work / "staged", CLIENTS / "c" / "run.c"
        lib, needs = staged / "usr" / "lib", "cc pkg-config"
        destdir = ["--prefix", "/usr", "--destdir", staged]
        env = {"PKG_CONFIG_LIBDIR": str(lib / "pkgconfig"), "PKG_CONFIG_SYSROOT_DIR": str(staged), "LD_LIBRARY_PATH": str(lib)}

        def linked(program, link, *asked):
            flags = f"$(pkg-config {' '.join(asked)} --cflags --libs fabcommit)"
            return ["sh", "-ec", f'cc {link} "$0" {flags} -o "$1"', run, self.work / program]

        left = ["find", staged, "!", "-type", "d"]
        steps = [self.install(*destdir), self.install(*destdir, "--uninstall")]
        shared, static = linked("run_shared", "-O2"), linked("run_static", "-O2 -static", "--static")
        return [
            Trial("installed", needs, [steps[0], shared], [self.work / "run_shared", *self.blocks], env, **self.run),
            Trial("installed, as an archive", needs, [steps[0], static], [self.work / "run_static", *self.blocks], env, **self.run),
            Trial("installed, and taken away", "cc", steps, left),
        ]

    def of_python(self):
        folder, shared, site = CLIENTS / "python", self.work / "libfabcommit_c.so", self.work / "site"
        link = ["cc", "-shared", "-o", shared, "-Wl,--whole-archive", *self.archives, "-Wl,--no-whole-archive"]
        python = lambda name, *words: [sys.executable, folder / f"{name}.py", *words]
        env = {"PYTHONDONTWRITEBYTECODE": "1"}
        so = {**env, "FABCOMMIT_SO": str(shared)}
        # the package finds the shared object by pkg-config
        install, found = self.in_prefix("for_python")
        pip = [sys.executable, "-m", "pip", "install", "--quiet", "--no-index", "--upgrade", "--target", site, folder]
        package = {**env, "FABCOMMIT_SO": "", "PKG_CONFIG_PATH": found["PKG_CONFIG_PATH"], "PYTHONPATH": str(site)}
        threads, ecdsa = python("examples/threads", *FILES, *GOOD), python("examples/ecdsa")
        tests = [sys.executable, "-P", "-m", "unittest", "discover", "--quiet", "--start-directory", folder / "tests"]
        needs, flags = "cc pkg-config python:pip", {"lines": "block 0 0 0 0 0 0 0 10 4\n"}
        return [
            Trial("Python", "cc", [link], python("run", *self.blocks), so, **self.run),
            Trial("Python, which checks", "cc", [link], python("run", "--verify", *self.blocks), so, **self.run),
            Trial("Python, which explains", "cc", [link], python("explain", *self.explained), so, **self.explain),
            Trial("Python, which checks and explains", "cc", [link], python("explain", "--verify", *self.explained), so, **self.explain),
            Trial("Python package, its tests", needs, [install, pip], tests, package),
            Trial("Python package, on threads", needs, [install, pip], threads, package, **self.all_good),
            Trial("Python package, by ECDSA", f"{needs} python:cryptography", [install, pip], ecdsa, package, **flags),
        ]

    def of_rust(self):
        folder, target = CLIENTS / "rust", self.work / "rust"
        cargo = lambda *words: ["cargo", *words, "--quiet", "--offline", "--target-dir", target]
        built, env = [cargo("build", "--release", "--examples")], {"FABCOMMIT_LIB": str(self.lib)}
        program = lambda name, *words: [target / "release" / "examples" / name, *words]
        install, found = self.in_prefix("for_rust")
        by_pkg_config = [install, ["env", "-u", "FABCOMMIT_LIB", *built[0]]]
        return [
            Trial("Rust", "cargo", built, program("run", *self.blocks), env, folder, **self.run),
            Trial("Rust, which explains", "cargo", built, program("explain", *self.explained), env, folder, **self.explain),
            Trial("Rust, on threads", "cargo", built, program("threads", FILES[0], *GOOD), env, folder, **self.all_good),
            Trial("Rust, its tests", "cargo", [cargo("test")], ["true"], env, folder),
            Trial("Rust, installed", "cargo cc pkg-config", by_pkg_config, program("run", *self.blocks), found, folder, **self.run),
        ]

    def of_go(self):
        program, explain = self.work / "run_go", self.work / "explain_go"
        build = ["go", "build", "-tags", "nopkgconfig", "-o", program, "./cmd/run"]
        build_explain = ["go", "build", "-tags", "nopkgconfig", "-o", explain, "./cmd/explain"]
        test = ["go", "test", "-tags", "nopkgconfig", "./..."]
        env = {
            "CGO_CFLAGS": f"-I{TOP / 'include'}", "CGO_LDFLAGS": " ".join(map(str, self.archives)), "GOFLAGS": "-mod=mod",
            "GO111MODULE": "on", "GOCACHE": str(self.work / "go_cache"), "GOPROXY": "off", "CGO_ENABLED": "1",
        }
        return [
            Trial("Go", "go", [build], [program, *self.blocks], env, CLIENTS / "go", **self.run),
            Trial("Go, which explains", "go", [build_explain], [explain, *self.explained], env, CLIENTS / "go", **self.explain),
            Trial("Go, its tests", "go", [test], ["true"], env, CLIENTS / "go"),
            Trial("Go, which checks", "go", [build], [program, "-verify", *self.blocks], env, CLIENTS / "go", **self.run),
        ]
