"""Builds the oracle, and what stands over it and the static library, below target/: nix-wire as it stands here, with Debian's sources of the crates that it uses. Nothing is installed."""
import os
import pathlib
import shutil
import subprocess
import sys

HERE = pathlib.Path(__file__).resolve().parent
ROOT = HERE.parent
WORK = ROOT / "target/compare"

PACKAGES = [f"librust-{name}-dev" for name in ("tokio", "anyhow", "bytes", "memchr", "pin-project-lite", "autocfg")]

# Declared by nix-wire's script/mod.rs and not in our text of it; nothing that is compared needs them.
LEFT_OUT = ["decompile", "expect", "format", "parse", "serialize"]


class Failed(Exception):
    pass


def call(words, where, cannot, more=None):
    try:
        done = subprocess.run(words, cwd=where, env={**os.environ, **(more or {})}, stdout=subprocess.PIPE, stderr=subprocess.STDOUT, text=True)
    except FileNotFoundError:
        raise Failed(f"{cannot}: the command '{words[0]}' is missing") from None
    if done.returncode != 0:
        raise Failed(f"{cannot}: '{words[0]}' ended with status {done.returncode} and said\n{done.stdout.rstrip()}")


def apt_get(words, where, cannot):
    """What apt-get is asked for; of all that it says where it fails, the first error."""
    try:
        call(["apt-get", "-q", *words], where, "")
    except Failed as why:
        lines = str(why).splitlines()
        raise Failed(f"{cannot}: {next((line for line in lines if line.startswith('E: ')), lines[-1])}") from None


def download(debs):
    """Debian's packages of crate sources. Where this system has no lists of packages, they are fetched too, beside the packages: that needs no root."""
    try:
        return apt_get(["download", *PACKAGES], debs, "")
    except Failed:
        pass
    lists = debs.parent / "lists"
    (lists / "partial").mkdir(parents=True, exist_ok=True)
    own = ["-o", f"Dir::State::lists={lists}", "-o", f"Dir::Cache={lists}", "-o", "APT::Sandbox::User=root"]
    # without this mode an archive that can't be reached is a warning only, and then no package is found
    apt_get([*own, "-o", "APT::Update::Error-Mode=any", "update"], debs, "Debian's archive can't be reached")
    apt_get([*own, "download", *PACKAGES], debs, "Debian's archive does not give the sources of the crates that nix-wire uses")


def crate_sources(place=WORK):
    """The crate sources: downloaded, once, and taken apart."""
    vendor = place / "vendor"
    if vendor.exists():
        return vendor
    debs, parts = place / "debs", place / "parts"
    for folder in (debs, parts):
        shutil.rmtree(folder, ignore_errors=True)
        folder.mkdir(parents=True)
    download(debs)
    for deb in sorted(debs.glob("*.deb")):
        call(["dpkg-deb", "-x", str(deb), str(parts)], place, "cannot take a package apart")
    (parts / "usr/share/cargo/registry").rename(vendor)
    return vendor


def built(crate, made, cannot, more=None):
    """The path of the crate's program, which cargo makes below the folder `made`."""
    sources = ['source.crates-io.replace-with="debian"', f'source.debian.directory="{crate_sources()}"']
    flags = [word for s in sources for word in ("--config", s)]
    call(["cargo", "build", "-q", "--release", "--offline", "--target-dir", str(made), *flags], crate, cannot, more)
    return made / "release" / crate.name


def copied(source, place):
    """A copy, so that what cargo writes beside a crate stays out of the repository."""
    shutil.rmtree(place, ignore_errors=True)
    shutil.copytree(source, place)
    return place


def oracle_crate():
    crate = copied(HERE / "oracle", WORK / "oracle")
    shutil.copytree(HERE / "nix-wire/src", crate / "src", dirs_exist_ok=True)
    for name in LEFT_OUT:
        empty = crate / f"src/script/{name}.rs"
        empty.touch()
        # an old date, so that cargo does not build anew
        shutil.copystat(HERE / "nix-wire/src/script/mod.rs", empty)
    return crate


def oracle():
    """The path of the built program."""
    return built(oracle_crate(), WORK / "cargo", "cannot build the oracle")


def library():
    """The folder of the static library, which is made where it is missing."""
    done = subprocess.run([ROOT / "rust/library"], stdout=subprocess.PIPE, text=True)
    if done.returncode != 0:
        raise Failed("there is no static library")
    return done.stdout.strip()


def over_library(source, made, cannot, more=None):
    """The path of a program that has oracle and library in one."""
    oracle_crate()
    return built(copied(source, WORK / source.name), made, cannot, {"LINTELOW_LIB": library(), **(more or {})})


if __name__ == "__main__":  # [FOLDER]: only downloads the crate sources, to that folder
    try:
        crate_sources(*map(pathlib.Path, sys.argv[1:]))
    except Failed as why:
        print(f"compare: {why}", file=sys.stderr)
        sys.exit(2)
