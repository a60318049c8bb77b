"""package.sh makes a package of Debian and an archive of the same; installed into a root that
has nothing else but libc and python3 it runs README's first commands as an ordinary user, and no
link of an installed page is dead.

With `DEBIAN_MIRROR=http://deb.debian.org/debian` in the environment the same is done in a root
that debootstrap makes from there.
"""
from __future__ import annotations

import os
import re
import shutil
import subprocess
import tarfile
from collections.abc import Iterator
from pathlib import Path

import pytest

import rights
from conftest import new_room
from outside import documents
from places import PROGRAMS, RINGSIZE, TOP

# It is made once.
pytestmark = [pytest.mark.needs("dpkg-deb"), pytest.mark.xdist_group("package")]

MIRROR = os.environ.get("DEBIAN_MIRROR")
ROOTS = ["by_hand", *["debootstrap"] * bool(MIRROR)]


@pytest.fixture(scope="module")
def made() -> Iterator[Path]:
    """A folder with the package and the archive."""
    for room in new_room():
        environment = {**os.environ, "RINGTAP": str(PROGRAMS[0]), "RINGSIZE": str(RINGSIZE)}
        subprocess.run(
            ["sh", TOP / "package.sh", room], env=environment, capture_output=True, check=True
        )
        yield room


def one(folder: Path, pattern: str) -> Path:
    (found,) = folder.glob(pattern)
    return found


@pytest.fixture(scope="module")
def unpacked(made: Path) -> Path:
    """What the package has below /."""
    folder = made / "unpacked"
    subprocess.run(["dpkg-deb", "-x", one(made, "*.deb"), folder], check=True)
    return folder


def test_version(made: Path) -> None:
    """That of CHANGELOG.md, which the tools say too."""
    said = subprocess.run(
        ["dpkg-deb", "-f", one(made, "*.deb"), "Version"], capture_output=True, text=True,
        check=True
    ).stdout.strip()
    assert said == re.search(r"^## (\d\S*)", (TOP / "CHANGELOG.md").read_text(), re.M)[1]
    assert one(made, "*.tar.gz").name.startswith(f"ringtap_{said}_")


def test_the_archive_has_the_same(made: Path, unpacked: Path) -> None:
    usr = unpacked / "usr"
    with tarfile.open(one(made, "*.tar.gz")) as archive:
        archived = {
            member.name.partition("/")[2]: member
            for member in archive if not member.isdir()
        }
    here = {
        str(path.relative_to(usr)): path
        for path in usr.rglob("*") if path.is_symlink() or path.is_file()
    }
    assert archived.keys() == here.keys()
    sizes = {name: member.size for name, member in archived.items() if not member.issym()}
    assert sizes == {name: here[name].stat().st_size for name in sizes}


def test_it_says_that_there_is_no_licence(unpacked: Path) -> None:
    said = (unpacked / "usr/share/doc/ringtap/copyright").read_text()
    assert said.startswith("ringtap: no licence is given yet; ")


def test_no_link_of_a_page_is_dead(unpacked: Path) -> None:
    pages = list((unpacked / "usr/share/doc/ringtap").rglob("*.md"))
    assert len(pages) > 10
    links = [
        (page, link)
        for page in pages
        for link in re.findall(r"\]\(([^)#\s:]+)[)#]", page.read_text(encoding="utf-8"))
    ]
    assert [
        f"{page.name}: {link}" for page, link in links if not (page.parent / link).exists()
    ] == []


def test_each_tool_has_its_page_and_its_completion(unpacked: Path) -> None:
    names = {path.name for path in (unpacked / "usr/bin").iterdir()}
    assert {path.stem for path in (unpacked / "usr/share/man/man1").iterdir()} == names
    assert {
        path.name
        for path in (unpacked / "usr/share/bash-completion/completions").iterdir()
    } == names


def test_completion_has_the_options_of_a_tool(unpacked: Path) -> None:
    text = (unpacked / "usr/share/bash-completion/completions/ringtap-lost").read_text()
    assert "--picture" in text and "--help" in text


def libraries(program: Path) -> list[Path]:
    """The shared objects that a program needs."""
    said = subprocess.run(["ldd", program], capture_output=True, text=True, check=True).stdout
    return [Path(word) for word in re.findall(r"(/\S+) \(0x", said)]


@pytest.mark.parametrize("name", ["ringtap", "ringsize"])
def test_a_program_needs_libc_alone(name: str, unpacked: Path) -> None:
    names = {
        re.sub(r"[-.]so.*|\.so.*", "", path.name)
        for path in libraries(unpacked / "usr/bin" / name)
    }
    assert names <= {"libc", "libm", "libgcc_s", "ld-linux-x86-64", "ld-linux-aarch64"}


def copy_into(root: Path, path: Path) -> None:
    """A file at its place in another root, with what it points to."""
    for one in {path, path.resolve()}:
        target = root / one.relative_to("/")
        target.parent.mkdir(parents=True, exist_ok=True)
        if not target.exists():
            shutil.copy(one, target)


def fill_by_hand(root: Path) -> None:
    """Puts libc, a shell and python3 into a root, and nothing else."""
    (root / "usr/lib").mkdir(parents=True)
    (root / "tmp").mkdir()
    for name in ("lib", "lib64", "bin"):
        if Path("/", name).is_symlink():
            (root / name).symlink_to(os.readlink(Path("/", name)))
            (root / os.readlink(Path("/", name))).mkdir(parents=True, exist_ok=True)
    python = Path("/usr/bin/python3").resolve()
    commands = [Path("/usr/bin/env"), Path("/bin/sh").resolve(), Path("/bin/cp"), python]
    for path in [
        *commands,
        *(library for command in [*commands, PROGRAMS[0]] for library in libraries(command))
    ]:
        copy_into(root, path)
    (root / "usr/bin/python3").symlink_to(python.name)
    (root / "usr/bin/sh").symlink_to(Path("/bin/sh").resolve().name)
    modules = Path(f"/usr/lib/{python.name}")
    shutil.copytree(
        modules, root / modules.relative_to("/"),
        ignore=shutil.ignore_patterns("test", "__pycache__", "dist-packages")
    )
    shutil.copytree(
        "/usr/share/zoneinfo/Etc", root / "usr/share/zoneinfo/Etc", dirs_exist_ok=True,
        symlinks=True
    )
    for folder in ("info", "updates"):
        (root / "var/lib/dpkg" / folder).mkdir(parents=True)
    (root / "var/lib/dpkg/status").write_text("")


def run_quietly(*words: object) -> None:
    done = subprocess.run([*map(str, words)], capture_output=True, text=True, check=False)
    assert done.returncode == 0, done.stdout + done.stderr


@pytest.fixture(scope="module", params=ROOTS)
def root(made: Path, request: pytest.FixtureRequest) -> Path:
    """A root with the package, and the documents in the home of a user."""
    root = made / request.param
    install = ["dpkg", f"--root={root}", "--force-not-root", "--install", one(made, "*.deb")]
    if request.param == "debootstrap":
        words = ["--variant=minbase", "--include=python3", "stable", root, MIRROR]
        run_quietly("debootstrap", *words)
    else:
        fill_by_hand(root)
        install.insert(1, "--force-depends")
    run_quietly(*install)
    home = root / "home/user"
    shutil.copytree(root / "usr/share/doc/ringtap", home)
    for path in [home, *home.rglob("*")]:
        path.chmod(0o777)
    return root


def by_user(root: Path, command: str) -> str:
    """What a command prints in that root, by a user who isn't root, in a copy of the documents."""
    words = [
        "chroot", "--userspec=65534:65534", str(root), "/usr/bin/env", "-i", "PATH=/usr/bin:/bin",
        "HOME=/home/user"
    ]
    if os.getuid() != 0:
        words = ["unshare", "--map-root-user", "chroot", *words[2:]]
    done = subprocess.run(
        [*words, "/bin/sh", "-c", f"cd /home/user && {command}"], capture_output=True, text=True,
        check=False
    )
    assert done.returncode == 0, done.stderr
    return done.stdout


def with_null(root: Path) -> None:
    """The system's /dev/null in another root: a tool hands outputs that nobody asked for to it."""
    (root / "dev").mkdir(exist_ok=True)
    if not (root / "dev/null").exists():
        rights.make_null(root / "dev/null")


@pytest.mark.needs("a chroot", "device files")
def test_readme(root: Path) -> None:
    """Its commands, with the package's names for the tools."""
    with_null(root)
    commands = documents.steps((TOP / "README.md").read_text(encoding="utf-8"))
    assert commands
    for command, lines in commands:
        words = command.replace("python3 tools/ring_size.py", "ringtap-size")
        assert documents.otherwise(lines, by_user(root, words)) is None, command


@pytest.mark.needs("a chroot")
@pytest.mark.parametrize(
    ("command", "pattern"),
    [
        ("ringtap-lost demo/small.txt demo/schedule.txt", r"^  0 *45-52 *8 "),
        (
            "ringtap-run replay demo/small.txt demo/schedule.txt --into new",
            r"^total arrivals 52 filtered 0 kept 43 drops 9$"
        ),
        ("ringtap-size --version", r"^ringtap-size \(ringtap\) "),
        ("ringtap replay demo/small.txt demo/schedule.txt", r"^member 0 packets 52 drops 9 "),
        (
            "echo 'pause 10' >reader.txt && ringsize demo/small.txt reader.txt",
            r"^group blocks 6 phase \d from \d$"
        ),
    ]
)
def test_it_runs(root: Path, command: str, pattern: str) -> None:
    assert re.search(pattern, by_user(root, command), re.M)
