"""Builds the peers of `compare` and `tasks`. Each function returns the program's path, or None if a compiler or a library is missing."""
import os
import pathlib
import re
import shutil
import subprocess

HERE = pathlib.Path(__file__).resolve().parent


def is_done(words, **more):
    """Whether a command ended with status 0."""
    return subprocess.run(words, stdout=subprocess.DEVNULL, stderr=subprocess.DEVNULL, **more).returncode == 0


def built_cpp(name, flags, folder):
    """A peer in C++."""
    program = f"{folder}/{name}"
    words = ["g++", "-std=c++17", "-O2", "-o", program, f"{HERE}/{name}.cpp", *flags]
    return program if shutil.which("g++") and is_done(words) else None


def rust_packages():
    """The folder of Rust packages in which Debian's package of rayon lies, or nothing."""
    if "RUST_PACKAGES" in os.environ or not shutil.which("dpkg-query"):
        return os.environ.get("RUST_PACKAGES", "")
    listed = subprocess.run(["dpkg-query", "-L", "librust-rayon-dev"], capture_output=True, text=True).stdout
    found = re.search(r"^(.*)/rayon-[\d.]+/Cargo\.toml$", listed, re.M)
    return found[1] if found else ""


def built_rayon(name, program, folder):
    """A peer in Rust, in the folder of this name, over rayon. Why a copy: cargo writes beside its sources."""
    packages = rust_packages()
    if not shutil.which("cargo") or not os.path.isdir(packages):
        return None
    copy = shutil.copytree(HERE / name, f"{folder}/{name}")
    words = ["cargo", "build", "--release", "--offline", "--quiet"]
    for it in ('source.crates-io.replace-with="packages"', f'source.packages.directory="{packages}"'):
        words += ["--config", it]
    return f"{copy}/target/release/{program}" if is_done(words, cwd=copy) else None
