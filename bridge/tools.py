"""What the bridge's programs share beside the formats: files, and git, openssl and rad_node.

Each program ends with 0 where all was done, 1 where an input, a file or a command refused, and 2
where its words are wrong. A refusal is one line on standard error.
"""
from __future__ import annotations

import argparse
import contextlib
import mmap
import os
import shutil
import subprocess
import sys
import tempfile
import zlib
from hashlib import sha1
from typing import BinaryIO, Callable, Iterable, Iterator, NamedTuple, NoReturn, Sequence

from formats import Claim, Content, Kind, KIND_OF_WORD, Object, Refused, name_of, show

TOP = os.path.dirname(os.path.dirname(os.path.realpath(__file__)))
# Where the program lies in this repository: as it is built, and as it is installed.
PROGRAM_PLACES = (os.path.join("crates", "rad_node", "out", "rad_node"),
                  os.path.join("bin", "rad_node"))
# The DER of an Ed25519 public key, in front of its 32 bytes (RFC 8410).
ED25519_DER = bytes.fromhex("302a300506032b6570032100")
# How many names are asked of git at a time: fewer bytes than a pipe holds.
ASKED_AT_ONCE = 500


# Programs


def words_parser(description: str | None, example: str) -> argparse.ArgumentParser:
    """A parser of words whose help ends with the exit statuses and an example."""
    return argparse.ArgumentParser(
        description=description, formatter_class=argparse.RawDescriptionHelpFormatter,
        epilog="exit status: 0 all was done, 1 an input, a file or a command refused, "
               f"2 wrong words\n\nexample: {example}")


def run_main(main: Callable[[], int]) -> NoReturn:
    """Runs a program's main, and tells a refusal in one line."""
    name = os.path.basename(sys.argv[0])
    # A path may have any bytes.
    sys.stdout.reconfigure(errors="surrogateescape")
    try:
        status = main()
        sys.stdout.flush()
    except Refused as error:
        print(f"{name}: {error}", file=sys.stderr)
        status = 1
    except OSError as error:
        where = f"{error.filename}: " if error.filename else ""
        print(f"{name}: {where}{error.strerror}", file=sys.stderr)
        status = 1
    except KeyboardInterrupt:
        status = 130
    sys.exit(status)


# Files


@contextlib.contextmanager
def refused_in(place: str) -> Iterator[None]:
    """Puts the name of a file or an object in front of what is refused."""
    try:
        yield
    except Refused as error:
        raise Refused(f"{place}: {error}") from error


def map_file(path: str) -> Content:
    """The bytes of a file, where they lie."""
    with open(path, "rb") as file:
        if os.fstat(file.fileno()).st_size == 0:
            return b""
        return memoryview(mmap.mmap(file.fileno(), 0, access=mmap.ACCESS_READ))


@contextlib.contextmanager
def new_file(path: str) -> Iterator[BinaryIO]:
    """A file to write, which stands at its path once it is whole."""
    beside = f"{path}.{os.getpid()}.new"
    with open(beside, "xb") as file:
        try:
            yield file
            file.flush()
            os.fsync(file.fileno())
            os.replace(beside, path)
        except BaseException:
            os.unlink(beside)
            raise


# Commands


def tool(name: str) -> str:
    found = shutil.which(name)
    if found is None:
        raise Refused(f"the command {name} is not on the PATH: install it")
    return found


class Answer(NamedTuple):
    status: int
    out: bytes
    error: str


def run(words: Sequence[str | bytes], given: bytes = b"", **more: object) -> Answer:
    """Runs a command to its end."""
    done = subprocess.run(words, input=given, capture_output=True, check=False, **more)
    return Answer(done.returncode, done.stdout, show(done.stderr).strip())


# Ed25519, by openssl


def openssl(*words: str) -> Answer:
    return run([tool("openssl"), *words])


def node_of(key_file: str) -> bytes:
    """The node id of a key file: the 32 bytes of its public key."""
    if not os.path.isfile(key_file):
        raise Refused(f"{key_file}: there is no such key file; bridge/keygen makes one")
    answer = openssl("pkey", "-in", key_file, "-pubout", "-outform", "DER")
    if answer.status or len(answer.out) != 44 or not answer.out.startswith(ED25519_DER):
        raise Refused(f"{key_file}: this is no private Ed25519 key in PEM; bridge/keygen makes one")
    return answer.out[len(ED25519_DER):]


def sign(key_file: str, message: bytes) -> bytes:
    """The 64 bytes of a key's signature of a message, which is not empty."""
    with tempfile.TemporaryDirectory() as room:
        file = written(room, "message", message)
        answer = openssl("pkeyutl", "-sign", "-rawin", "-inkey", key_file, "-in", file)
    if answer.status or len(answer.out) != 64:
        raise Refused(f"{key_file}: openssl does not sign with it: {answer.error}")
    return answer.out


def holds(claim: Claim) -> bool:
    """Whether the claimed signature is the key's, by RFC 8032."""
    if not claim.message:
        raise Refused("openssl verifies no signature of an empty message")
    with tempfile.TemporaryDirectory() as room:
        key = written(room, "key", ED25519_DER + claim.key)
        signature = written(room, "signature", claim.signature)
        message = written(room, "message", claim.message)
        answer = openssl("pkeyutl", "-verify", "-rawin", "-pubin", "-keyform", "DER", "-inkey", key,
                         "-sigfile", signature, "-in", message)
    return answer.status == 0


def written(folder: str, name: str, data: bytes) -> str:
    """The path of a new file of these bytes."""
    path = os.path.join(folder, name)
    with open(path, "wb") as file:
        file.write(data)
    return path


# Git


# What would lead git to another repository than the one that is named.
LEADING_ASTRAY = ("GIT_DIR", "GIT_WORK_TREE", "GIT_INDEX_FILE", "GIT_COMMON_DIR", "GIT_NAMESPACE",
                  "GIT_OBJECT_DIRECTORY", "GIT_ALTERNATE_OBJECT_DIRECTORIES", "GIT_PREFIX")


def git_surroundings() -> dict[str, str]:
    kept = {name: value for name, value in os.environ.items() if name not in LEADING_ASTRAY}
    return {**kept, "GIT_NO_REPLACE_OBJECTS": "1", "LC_ALL": "C"}


class Repo:
    """A Git repository in a folder."""

    def __init__(self, folder: str) -> None:
        self.folder = folder
        self.words = [tool("git"), "-C", folder]

    def answer(self, *words: str | bytes, given: bytes = b"") -> Answer:
        return run([*self.words, *words], given, env=git_surroundings())

    def git(self, *words: str | bytes, given: bytes = b"") -> bytes:
        """What a command of git prints. Refused where it fails."""
        answer = self.answer(*words, given=given)
        if answer.status:
            raise Refused(f"{self.folder}: git {show(os.fsencode(words[0]))}: {answer.error}")
        return answer.out

    def asking(self, *words: str) -> subprocess.Popen[bytes]:
        return subprocess.Popen([*self.words, *words], stdin=subprocess.PIPE,
                                stdout=subprocess.PIPE, env=git_surroundings())

    def heads_of(self, names: Iterable[bytes]) -> list[tuple[Kind, int]]:
        """The kind and the size in bytes of each object."""
        asked = list(names)
        lines = self.git("cat-file", "--batch-check",
                         given=b"".join(b"%s\n" % name.hex().encode() for name in asked))
        return [object_head(line, name) for line, name in zip(lines.splitlines(), asked)]


def object_head(line: bytes, name: bytes) -> tuple[Kind, int]:
    """The kind and the size that a line of `git cat-file` tells."""
    words = line.split()
    if len(words) != 3 or words[1] not in KIND_OF_WORD:
        raise Refused(f"the object {name.hex()} is not in the repository; where that is a shallow "
                      "or a partial clone, fetch the rest first")
    return KIND_OF_WORD[words[1]], int(words[2])


class ObjectReader:
    """The objects of a repository, by `git cat-file --batch`."""

    def __init__(self, repo: Repo) -> None:
        self.process = repo.asking("cat-file", "--batch")

    def __enter__(self) -> ObjectReader:
        return self

    def __exit__(self, *_: object) -> None:
        for pipe in (self.process.stdin, self.process.stdout):
            pipe.close()
        self.process.wait()

    def read(self, names: Sequence[bytes]) -> Iterator[tuple[bytes, Object]]:
        """Each object with its name, in the order of the names."""
        for start in range(0, len(names), ASKED_AT_ONCE):
            asked = names[start:start + ASKED_AT_ONCE]
            self.process.stdin.write(b"".join(b"%s\n" % name.hex().encode() for name in asked))
            self.process.stdin.flush()
            for name in asked:
                yield name, self.next(name)

    def next(self, name: bytes) -> Object:
        kind, size = object_head(self.process.stdout.readline(), name)
        content = self.process.stdout.read(size + 1)[:-1]
        if name_of(kind, content) != name:
            raise Refused(f"the object {name.hex()} has another content than its name says: "
                          "look at the repository with git fsck")
        return Object(kind, content)


def pack_entry(found: Object) -> bytes:
    """An object in Git's pack format: kind and length in groups of 4 and 7 bits, then zlib."""
    left, head = len(found.content), bytearray()
    group, left = found.kind << 4 | left & 15, left >> 4
    while left:
        head.append(group | 128)
        group, left = left & 127, left >> 7
    head.append(group)
    return bytes(head) + zlib.compress(found.content)


def add_objects(repo: Repo, objects: Sequence[Object]) -> None:
    """Adds objects to a repository, as one pack that git indexes."""
    digest = sha1()
    with repo.asking("index-pack", "--stdin") as process:
        def give(data: bytes) -> None:
            digest.update(data)
            process.stdin.write(data)

        try:
            give(b"PACK\0\0\0\2" + len(objects).to_bytes(4, "big"))
            for found in objects:
                give(pack_entry(found))
            process.stdin.write(digest.digest())
        except BrokenPipeError:
            pass
        process.communicate()
    if process.returncode:
        raise Refused(f"{repo.folder}: git index-pack did not take the objects")


# The program


def find_program(named: str | None) -> str:
    """The path of rad_node: what is named, else this repository's, else that on the PATH."""
    here = [os.path.join(TOP, place) for place in PROGRAM_PLACES]
    for path in [named] if named else [*here, shutil.which("rad_node")]:
        if path and os.access(path, os.X_OK) and os.path.isfile(path):
            return os.path.abspath(path)
    raise Refused(f"there is no program at {named}" if named else
                  "rad_node is not built: run ./install, or name it by --program PATH")


def run_program(program: str, *words: str) -> list[bytes]:
    """The lines that a command of rad_node prints. Refused where its status is not 0."""
    answer = run([program, *words])
    if answer.status:
        raise Refused(f"{' '.join(words)}: status {answer.status}: {answer.error}")
    return answer.out.splitlines()
