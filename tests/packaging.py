"""What `./install` and `./package` put where, and that a package has the same bytes each time."""

import hashlib
import io
import os
import shutil
import subprocess
import tarfile

from harness import Failure, Skipped, same

TOP = os.path.join(os.path.dirname(os.path.abspath(__file__)), "..")
COMMIT_TIME = 1_000_000_000

# Each installed file below the prefix, and what it is.
INSTALLED = {
    "bin/mod_deployer": None,
    "bin/mod_deployer-report": "tools/launch_report",
    "share/bash-completion/completions/mod_deployer": "completions/mod_deployer.bash",
    "share/doc/mod_deployer/COMMANDS.md": "docs/COMMANDS.md",
    "share/doc/mod_deployer/FORMATS.md": "docs/FORMATS.md",
    "share/fish/vendor_completions.d/mod_deployer.fish": "completions/mod_deployer.fish",
    "share/man/man1/mod_deployer.1": "man/mod_deployer.1",
    "share/zsh/site-functions/_mod_deployer": "completions/_mod_deployer",
}
for _folder, _, _names in os.walk(os.path.join(TOP, "examples")):
    for _name in _names:
        _file = os.path.relpath(os.path.join(_folder, _name), TOP)
        INSTALLED[f"share/doc/mod_deployer/{_file}"] = _file
for _name in os.listdir(os.path.join(TOP, "tools")):
    if _name.startswith("report"):
        INSTALLED[f"share/mod_deployer/{_name}"] = f"tools/{_name}"
# In a package, zsh's completion has another folder.
ZSH = "share/zsh/site-functions/_mod_deployer"
ZSH_IN_A_PACKAGE = "share/zsh/vendor-completions/_mod_deployer"


def each_file_is_installed(world):
    prefix = world.path("prefix with spaces")
    _install(world, prefix)
    same("what is installed", _files(prefix), sorted(INSTALLED))
    _is_whole(world, prefix, INSTALLED)
    _runs(world, os.path.join(prefix, "bin/mod_deployer"))


def an_old_installation_is_replaced(world):
    prefix = world.path("prefix")
    for place in INSTALLED:
        world.file(f"prefix/{place}", "old")
    with open(os.path.join(prefix, "bin/mod_deployer"), "rb") as old:
        _install(world, prefix)
        same("the file that was open", old.read(), b"old")
    same("what is installed", _files(prefix), sorted(INSTALLED))
    _is_whole(world, prefix, INSTALLED)


def a_package_has_the_same_bytes_each_time(world):
    first = _package(world, "one", umask=0o022)
    second = _package(world, "two", umask=0o077)
    same("the name", os.path.basename(first), os.path.basename(second))
    same("the digest", _digest(first), _digest(second))


def a_package_has_what_is_installed(world):
    parts = _members(_package(world, "made"))
    same("the parts", list(parts), ["debian-binary", "control.tar.gz", "data.tar.gz"])
    same("the version of the format", parts["debian-binary"], b"2.0\n")
    with tarfile.open(fileobj=io.BytesIO(parts["data.tar.gz"])) as tar:
        entries = tar.getmembers()
        tar.extractall(world.path("root"), **_as_it_is())
    for entry in entries:
        same(f"the owner of {entry.name}", (entry.uid, entry.gid, entry.uname), (0, 0, "root"))
        same(f"the time of {entry.name}", entry.mtime, COMMIT_TIME)
        mode = 0o755 if entry.isdir() or "/bin/" in entry.name else 0o644
        same(f"the mode of {entry.name}", entry.mode, mode)
    names = [entry.name for entry in entries]
    same("the order of the names", names, sorted(names))
    same("what is in the package", _files(world.path("root/usr")), sorted(_in_a_package()))
    _is_whole(world, world.path("root/usr"), _in_a_package())
    _runs(world, world.path("root/usr/bin/mod_deployer"))


def a_package_tells_its_sums(world):
    parts = _members(_package(world, "made"))
    with tarfile.open(fileobj=io.BytesIO(parts["control.tar.gz"])) as tar:
        told = tar.extractfile("./md5sums").read().decode()
        control = tar.extractfile("./control").read().decode()
    with tarfile.open(fileobj=io.BytesIO(parts["data.tar.gz"])) as tar:
        found = [
            f"{hashlib.md5(tar.extractfile(entry).read()).hexdigest()}  {entry.name[2:]}\n"
            for entry in tar.getmembers()
            if entry.isfile()
        ]
    same("the sums", told, "".join(found))
    for field in ["Package: mod-deployer", "Version: 0+20010909014640", "Architecture: "]:
        if field not in control:
            raise Failure(f"{field} isn't in {control}")


def debian_installs_a_package(world):
    if not shutil.which("dpkg"):
        raise Skipped("dpkg isn't installed")
    package = _package(world, "made")
    root = world.path("root")
    world.folder("root/var/lib/dpkg/info").folder("root/var/lib/dpkg/updates")
    world.file("root/var/lib/dpkg/status")
    words = ["dpkg", f"--root={root}", "--log=/dev/null"]
    words += ["--force-not-root", "--force-depends", "--force-bad-path"]
    _done([*words, "-i", package])
    same("what is installed", _files(os.path.join(root, "usr")), sorted(_in_a_package()))
    _runs(world, os.path.join(root, "usr/bin/mod_deployer"))
    _done([*words, "--verify", "mod-deployer"])
    _done([*words, "-r", "mod-deployer"])
    same("what is left", os.path.exists(os.path.join(root, "usr")), False)


def _install(world, prefix):
    _done([os.path.join(TOP, "install"), prefix, world.program])


def _package(world, folder, umask=0o022):
    """The path of a package that is made in the folder."""
    return _done(
        [os.path.join(TOP, "package"), world.path(folder), world.program],
        env=dict(os.environ, SOURCE_DATE_EPOCH=str(COMMIT_TIME)),
        umask=umask,
    ).strip()


def _done(words, **options):
    done = subprocess.run(words, capture_output=True, text=True, check=False, **options)
    if done.returncode != 0:
        raise Failure(f"{words[0]} ended with {done.returncode}: {done.stdout}{done.stderr}")
    return done.stdout


def _in_a_package():
    return {ZSH_IN_A_PACKAGE if place == ZSH else place: file for place, file in INSTALLED.items()}


def _is_whole(world, prefix, places):
    for place, file in places.items():
        path = os.path.join(prefix, place)
        source = os.path.join(TOP, file) if file else world.program
        same(f"the digest of {place}", _digest(path), _digest(source))
        same(f"the mode of {place}", os.stat(path).st_mode & 0o777, 0o755 if "bin/" in place else 0o644)


# The program there is one: no words are no command.
def _runs(world, program):
    world.folder("elsewhere")
    done = subprocess.run([program], cwd=world.path("elsewhere"), capture_output=True, check=False)
    same("what it answers", (done.returncode, done.stdout), (2, b"usage\n"))


def _files(top):
    return sorted(
        os.path.relpath(os.path.join(folder, name), top)
        for folder, _, names in os.walk(top)
        for name in names
    )


def _digest(path):
    with open(path, "rb") as file:
        return hashlib.sha256(file.read()).hexdigest()


# The parts of an archive, by their names.
def _members(path):
    with open(path, "rb") as file:
        data = file.read()
    same("the head", data[:8], b"!<arch>\n")
    parts = {}
    at = 8
    while at < len(data):
        name, size = data[at : at + 16].decode().strip(), int(data[at + 48 : at + 58])
        parts[name] = data[at + 60 : at + 60 + size]
        at += 60 + size + size % 2
    return parts


# Newer Pythons ask how far an archive is trusted.
def _as_it_is():
    return {"filter": "fully_trusted"} if hasattr(tarfile, "fully_trusted_filter") else {}
