"""The byte formats that the bridge shares with rad_node, as docs/FORMATS.md describes them.

Nothing here runs a command or opens a file. Names of objects are 20 bytes, node ids 32, signatures
64; in texts they stand in lower case hexadecimal. A content may be a memoryview, so that a store
larger than memory can be read where it lies. What is outside its format raises Refused.
"""
from __future__ import annotations

import hashlib
import json
from dataclasses import dataclass, field
from enum import IntEnum
from typing import BinaryIO, Iterable, Iterator, Mapping, NamedTuple, Sequence, Union

Content = Union[bytes, memoryview]

MAX_CONTENT = 33_554_432
MAX_SECTIONS = 1_073_741_824
MAX_REMOTES = 1_024
MAX_REF_LINES = 65_536
MAX_DELEGATES = 255
MAX_BODY = 34_000_000
MAX_PUT_OBJECTS = 1_024
MAX_PUT_BYTES = 4_194_304

ROOT_REF = b"refs/rad/root"
SIGREFS_REF = b"refs/rad/sigrefs"
DIRECT_DELEGATE = "did:key:fed01"
PROJECT = "xyz.radicle.project"
# Who made the commits of identity and of signed refs. The time is fixed, so that the same state is
# packed to the same bytes.
BRIDGE_AUTHOR = (b"author bridge <bridge@localhost> 0 +0000\n"
                 b"committer bridge <bridge@localhost> 0 +0000\n\n")


class Refused(Exception):
    """An input is outside its format. The text says which, where, and what to do."""


class Kind(IntEnum):
    """The kind of an object, by the number that stands in sections, journals and Git's packs."""

    COMMIT = 1
    TREE = 2
    BLOB = 3
    TAG = 4

    @property
    def word(self) -> bytes:
        return self.name.lower().encode()


KIND_OF_WORD = {kind.word: kind for kind in Kind}
KIND_OF_NUMBER = {int(kind): kind for kind in Kind}


class Object(NamedTuple):
    kind: Kind
    content: Content


Objects = Mapping[bytes, Object]


# Object names and contents


def name_of(kind: Kind, content: Content) -> bytes:
    """The SHA-1 of the kind's word, a space, the length in decimal, a zero byte and the content."""
    digest = hashlib.sha1(b"%s %d\0" % (kind.word, len(content)))
    digest.update(content)
    return digest.digest()


# What the entry of a mode links to; a gitlink links to nothing.
LINK_OF_MODE = {
    b"100644": Kind.BLOB,
    b"100755": Kind.BLOB,
    b"100664": Kind.BLOB,
    b"120000": Kind.BLOB,
    b"40000": Kind.TREE,
    b"160000": None,
}
DIRECTORY = b"40000"


class TreeEntry(NamedTuple):
    mode: bytes
    name: bytes
    oid: bytes

    @property
    def key(self) -> bytes:
        """What entries are ordered by."""
        return self.name + b"/" if self.mode == DIRECTORY else self.name


class Commit(NamedTuple):
    tree: bytes
    parents: list[bytes]
    rest: bytes


class Tag(NamedTuple):
    oid: bytes
    kind: Kind
    rest: bytes


def read_tree(content: Content) -> list[TreeEntry]:
    """The entries of a tree, in order."""
    data, place, entries = bytes(content), 0, []
    while place < len(data):
        space, end = data.find(b" ", place), data.find(b"\0", place)
        if not place <= space < end or end + 21 > len(data):
            raise Refused(f"a tree's entry at byte {place} is not whole")
        entry = TreeEntry(data[place:space], data[space + 1:end], data[end + 1:end + 21])
        if entry.mode not in LINK_OF_MODE:
            raise Refused(f"the entry {show(entry.name)} has the mode {show(entry.mode)}, which is "
                          "none of " + " ".join(mode.decode() for mode in LINK_OF_MODE))
        if not entry.name or b"/" in entry.name:
            raise Refused(f"the entry at byte {place} has an empty name, or one with a slash")
        if entries and entries[-1].key >= entry.key:
            raise Refused(f"the entry {show(entry.name)} is out of order")
        entries.append(entry)
        place = end + 21
    return entries


def write_tree(entries: Iterable[TreeEntry]) -> bytes:
    ordered = sorted(entries, key=lambda entry: entry.key)
    return b"".join(b"%s %s\0%s" % entry for entry in ordered)


def take_line(data: bytes, word: bytes) -> tuple[bytes, bytes]:
    """The word's line (without its word, space and line feed), and what follows it."""
    line, end, after = data.partition(b"\n")
    if not end or not line.startswith(word + b" "):
        raise Refused(f"there is no line \"{word.decode()} ..\" where one has to stand")
    return line[len(word) + 1:], after


def read_commit(content: Content) -> Commit:
    line, data = take_line(bytes(content), b"tree")
    tree, parents = parse_name(line), []
    while data.startswith(b"parent "):
        line, data = take_line(data, b"parent")
        parents.append(parse_name(line))
    if not data.startswith(b"author "):
        raise Refused("no author's line follows the lines of the parents")
    return Commit(tree, parents, data)


def write_commit(commit: Commit) -> bytes:
    lines = [b"tree %s\n" % commit.tree.hex().encode()]
    lines += [b"parent %s\n" % parent.hex().encode() for parent in commit.parents]
    return b"".join(lines) + commit.rest


def read_tag(content: Content) -> Tag:
    line, data = take_line(bytes(content), b"object")
    oid = parse_name(line)
    word, data = take_line(data, b"type")
    if word not in KIND_OF_WORD:
        raise Refused(f"a tag's type is {show(word)}, which is no kind of object")
    if not data.startswith(b"tag "):
        raise Refused("no line \"tag ..\" follows a tag's type")
    return Tag(oid, KIND_OF_WORD[word], data)


class Link(NamedTuple):
    oid: bytes
    kind: Kind


def links(kind: Kind, content: Content) -> list[Link]:
    """What a content links to, in order. Refused where the content is outside the profile."""
    if len(content) > MAX_CONTENT:
        raise Refused(f"it has {len(content)} bytes, which is past the limit of {MAX_CONTENT}")
    if kind is Kind.TREE:
        found = [(entry.oid, LINK_OF_MODE[entry.mode]) for entry in read_tree(content)]
        return [Link(oid, of) for oid, of in found if of is not None]
    if kind is Kind.COMMIT:
        commit = read_commit(content)
        return [Link(commit.tree, Kind.TREE)] + [Link(oid, Kind.COMMIT) for oid in commit.parents]
    if kind is Kind.TAG:
        tag = read_tag(content)
        return [Link(tag.oid, tag.kind)]
    return []


# Texts


def show(text: bytes) -> str:
    """Any bytes as a text that can be printed."""
    return text.decode("utf-8", "backslashreplace")


def parse_hex(text: bytes, size: int) -> bytes:
    """So many bytes from lower case hexadecimal digits."""
    if len(text) != 2 * size or any(digit not in b"0123456789abcdef" for digit in text):
        raise Refused(f"{show(text)[:80]} is not {2 * size} lower case hexadecimal digits")
    return bytes.fromhex(text.decode())


def parse_name(text: bytes) -> bytes:
    return parse_hex(text, 20)


# Ref names and signed refs


def broken_rule(name: bytes) -> int | None:
    """The least number of a rule of git-check-ref-format that the name breaks."""
    parts = name.split(b"/")
    rules = [
        any(part.startswith(b".") or part.endswith(b".lock") for part in parts),
        len(parts) == 1,
        b".." in name,
        any(byte <= 32 or byte == 127 or byte in b"~^:" for byte in name),
        any(byte in b"?*[" for byte in name),
        b"" in parts,
        name.endswith(b"."),
        b"@{" in name,
        name == b"@",
        b"\\" in name,
    ]
    return next((number for number, broken in enumerate(rules, 1) if broken), None)


def may_be_signed(name: bytes) -> bool:
    return name.startswith(b"refs/") and name != SIGREFS_REF and broken_rule(name) is None


def write_refs(refs: Mapping[bytes, bytes]) -> bytes:
    """The lines of refs (from names to objects), rising by name."""
    return b"".join(b"%s %s\n" % (refs[name].hex().encode(), name) for name in sorted(refs))


def read_refs(content: Content) -> dict[bytes, bytes]:
    """The refs, from names to objects, in their order."""
    lines, refs, last = bytes(content).split(b"\n"), {}, b""
    if lines.pop() != b"" or len(lines) > MAX_REF_LINES:
        raise Refused(f"refs end inside a line, or have more than {MAX_REF_LINES} lines")
    for number, line in enumerate(lines, 1):
        oid, _, name = line.partition(b" ")
        if not may_be_signed(name) or name <= last:
            raise Refused(f"line {number} of refs is out of order, or {show(name)} is no name that "
                          "may be signed")
        refs[name], last = parse_name(oid), name
    return refs


# Making objects, and finding them


class Made(dict):
    """New objects by name, in the order of their making."""

    def add(self, kind: Kind, content: bytes) -> bytes:
        oid = name_of(kind, content)
        self.setdefault(oid, Object(kind, content))
        return oid

    def blob(self, content: bytes) -> bytes:
        return self.add(Kind.BLOB, content)

    def tree(self, mode: bytes, entries: Mapping[bytes, bytes]) -> bytes:
        """A tree whose entries (from names to objects) are all of one mode."""
        made = [TreeEntry(mode, name, oid) for name, oid in entries.items()]
        return self.add(Kind.TREE, write_tree(made))

    def commit(self, tree: bytes, parents: Sequence[bytes], message: bytes) -> bytes:
        commit = Commit(tree, list(parents), BRIDGE_AUTHOR + message + b"\n")
        return self.add(Kind.COMMIT, write_commit(commit))

    def identity_root(self, document: bytes) -> bytes:
        """The first identity commit of the repository that this document names."""
        embeds = self.tree(b"100644", {b"radicle.json": self.blob(document)})
        return self.commit(self.tree(DIRECTORY, {b"embeds": embeds}), [], b"identity")

    def signed_refs(self, refs: bytes, signature: bytes, parents: Sequence[bytes]) -> bytes:
        """A commit of signed refs."""
        blobs = {b"refs": self.blob(refs), b"signature": self.blob(signature)}
        return self.commit(self.tree(b"100644", blobs), parents, b"signed refs")


def object_as(objects: Objects, oid: bytes, kind: Kind) -> Content:
    """The content of an object that has to be there and of this kind."""
    found = objects.get(oid)
    if found is None or found.kind is not kind:
        raise Refused(f"the {kind.word.decode()} {oid.hex()} is not there")
    return found.content


def commit_at(objects: Objects, oid: bytes) -> Commit:
    return read_commit(object_as(objects, oid, Kind.COMMIT))


def entry_at(objects: Objects, tree: bytes, name: bytes, kind: Kind) -> bytes | None:
    """The object that a tree's entry of this name links to as this kind."""
    entries = read_tree(object_as(objects, tree, Kind.TREE))
    return next((entry.oid for entry in entries
                 if entry.name == name and LINK_OF_MODE[entry.mode] is kind), None)


def blob_at(objects: Objects, tree: bytes, name: bytes) -> bytes:
    oid = entry_at(objects, tree, name, Kind.BLOB)
    if oid is None:
        raise Refused(f"the tree {tree.hex()} has no file {show(name)}")
    return bytes(object_as(objects, oid, Kind.BLOB))


class SignedRefs(NamedTuple):
    text: bytes
    signature: bytes
    parents: list[bytes]


def signed_refs_at(objects: Objects, commit: bytes) -> SignedRefs:
    """What a commit of signed refs says; its lines are not read."""
    found = commit_at(objects, commit)
    text, signature = (blob_at(objects, found.tree, name) for name in (b"refs", b"signature"))
    if len(signature) != 64:
        raise Refused(f"the signature in {commit.hex()} has {len(signature)} bytes and not 64")
    return SignedRefs(text, signature, found.parents)


# Identities


def write_document(delegates: Sequence[bytes], threshold: int, branch: str, name: str,
                   private: bool) -> bytes:
    """An identity document whose delegates stand by their direct texts."""
    project = {"defaultBranch": branch, "description": "", "name": name}
    document = {"delegates": [DIRECT_DELEGATE + key.hex() for key in delegates],
                "payload": {PROJECT: project}, "threshold": threshold}
    if private:
        document["visibility"] = {"type": "private"}
    return json.dumps(document, sort_keys=True, separators=(",", ":"), ensure_ascii=False).encode()


def read_document(content: Content) -> dict:
    """The document's members. Only that it is an object of JSON is tested."""
    try:
        value = json.loads(bytes(content).decode())
    except (ValueError, RecursionError) as error:
        raise Refused(f"an identity document is no JSON: {error}") from error
    if not isinstance(value, dict):
        raise Refused("an identity document is no object of JSON")
    return value


def default_branch(document: dict) -> bytes | None:
    """The full name of the branch on which delegates agree, where the document names one."""
    value: object = document
    for member in ("payload", PROJECT, "defaultBranch"):
        value = value.get(member) if isinstance(value, dict) else None
    if not isinstance(value, str):
        return None
    name = b"refs/heads/" + value.encode("utf-8", "surrogatepass")
    return name if broken_rule(name) is None else None


class Identity(NamedTuple):
    """A commit of an identity chain, its document's blob, and its signatures' text."""

    commit: bytes
    parents: list[bytes]
    document: bytes
    signatures: bytes


def identity_at(objects: Objects, oid: bytes) -> Identity:
    commit = commit_at(objects, oid)
    embeds = entry_at(objects, commit.tree, b"embeds", Kind.TREE)
    document = embeds and entry_at(objects, embeds, b"radicle.json", Kind.BLOB)
    if not embeds or not document:
        raise Refused(f"the commit {oid.hex()} has no embeds/radicle.json")
    signatures = blob_at(objects, embeds, b"signatures") if commit.parents else b""
    return Identity(oid, commit.parents, document, signatures)


def identity_chain(objects: Objects, tip: bytes) -> Iterator[Identity]:
    """The identity's commits, from the tip towards the root, as far as they are there."""
    following = [tip]
    while following and following[0] in objects:
        identity = identity_at(objects, following[0])
        yield identity
        following = identity.parents


def document_at(objects: Objects, identity: bytes) -> dict:
    return read_document(object_as(objects, identity_at(objects, identity).document, Kind.BLOB))


# Keyrings


class Claim(NamedTuple):
    """That a key signed a message, as a commit says."""

    key: bytes
    message: bytes
    signature: bytes
    commit: bytes


def accept_line(claim: Claim) -> bytes:
    """The keyring's line by which a signature is accepted, with its line feed."""
    digest = hashlib.sha256(claim.message).hexdigest()
    return f"accept {claim.key.hex()} {digest} {claim.signature.hex()}\n".encode()


def refs_claim(objects: Objects, key: bytes, commit: bytes) -> Claim:
    """That a key signed the refs of a commit."""
    said = signed_refs_at(objects, commit)
    return Claim(key, said.text, said.signature, commit)


def identity_claims(objects: Objects, tip: bytes) -> Iterator[Claim]:
    """What delegates signed of the changes that led to an identity."""
    for change in identity_chain(objects, tip):
        if not change.parents:
            continue
        said = f"rad-id 1 {change.parents[0].hex()} {change.document.hex()}\n".encode()
        for line in change.signatures.splitlines():
            key, _, signature = line.partition(b" ")
            yield Claim(parse_hex(key, 32), said, parse_hex(signature, 64), change.commit)


# Reading from the front


class Front:
    """Bytes that are read from the front. A refusal names the byte at which its part begins."""

    def __init__(self, data: Content) -> None:
        self.data = memoryview(data)
        self.place = 0

    def left(self) -> int:
        return len(self.data) - self.place

    def take(self, count: int) -> memoryview:
        if count > self.left():
            raise Refused(f"at byte {self.place}: {count} bytes have to follow, and "
                          f"{self.left()} do")
        self.place += count
        return self.data[self.place - count:self.place]

    def number(self, size: int, limit: int) -> int:
        """A big-endian number of so many bytes, at most the limit."""
        start = self.place
        found = int.from_bytes(self.take(size), "big")
        if found > limit:
            raise Refused(f"at byte {start}: the number {found} is past its limit of {limit}")
        return found

    def word(self, word: bytes) -> None:
        start = self.place
        if self.take(len(word)) != word:
            raise Refused(f"at byte {start}: the word \"{show(word).strip()}\" has to stand here")

    def remotes(self) -> dict[bytes, bytes]:
        """A count and so many pairs of a node id and a commit, rising by node id."""
        start, found = self.place, {}
        for _ in range(self.number(2, MAX_REMOTES)):
            node = bytes(self.take(32))
            found[node] = bytes(self.take(20))
        if list(found) != sorted(found):
            raise Refused(f"at byte {start}: the remotes are not rising by node id")
        return found

    def object(self) -> Object:
        """A kind's byte, a length of four bytes and the content."""
        start, number = self.place, self.number(1, 255)
        if number not in KIND_OF_NUMBER:
            raise Refused(f"at byte {start}: {number} is no kind of object")
        return Object(KIND_OF_NUMBER[number], self.take(self.number(4, MAX_CONTENT)))


def write_remotes(remotes: Mapping[bytes, bytes]) -> bytes:
    pairs = b"".join(node + remotes[node] for node in sorted(remotes))
    return len(remotes).to_bytes(2, "big") + pairs


def write_object(found: Object) -> bytes:
    return b"%c%s%s" % (found.kind, len(found.content).to_bytes(4, "big"), found.content)


# Bundles


SECTION_END = b"end\n"


class Offer(NamedTuple):
    """What a bundle offers: a repository's identity commit, and a commit for each remote."""

    rid: bytes
    identity: bytes
    remotes: dict[bytes, bytes]


@dataclass
class Bundle:
    """A bundle: its offer, and the objects of its sections (identity, signed refs, tips)."""

    offer: Offer
    sections: list[list[Object]]

    def objects(self) -> dict[bytes, Object]:
        return {name_of(*found): found for section in self.sections for found in section}


def write_bundle(out: BinaryIO, offer: Offer, sections: Sequence[Iterable[Object]]) -> None:
    """Writes a bundle of three sections, whose objects may come one by one."""
    out.write(offer.rid)
    heads = (b"I" + offer.identity + write_remotes(offer.remotes), b"S", b"D")
    for head, objects in zip(heads, sections):
        out.write(head)
        for found in objects:
            out.write(b"O" + write_object(found))
        out.write(SECTION_END)


def sections_size(offer: Offer, sizes: Iterable[int]) -> int:
    """The bytes that a bundle's sections have, by the sizes of all contents."""
    heads = 23 + 52 * len(offer.remotes) + 2 + 3 * len(SECTION_END)
    return heads + sum(6 + size for size in sizes)


def read_section(front: Front) -> list[Object]:
    objects = []
    while front.left() and front.data[front.place] == ord("O"):
        front.word(b"O")
        objects.append(front.object())
    front.word(SECTION_END)
    return objects


def read_bundle(data: Content) -> Bundle:
    front = Front(data)
    rid = bytes(front.take(20))
    front.word(b"I")
    offer = Offer(rid, bytes(front.take(20)), front.remotes())
    sections = [read_section(front)]
    for head in (b"S", b"D"):
        front.word(head)
        sections.append(read_section(front))
    if front.left():
        raise Refused(f"at byte {front.place}: bytes follow the bundle")
    return Bundle(offer, sections)


# Journals


JOURNAL_HEADER = b"\x01radjrn\x01"
OPEN_GATE, CLOSED_GATE = b"\x01", b"\x00"


class Put(NamedTuple):
    """Objects that were added to a repository."""

    rid: bytes
    objects: list[Object]


class Install(NamedTuple):
    """A repository's identity, and the remotes that it replaced or added."""

    rid: bytes
    identity: bytes
    remotes: dict[bytes, bytes]


class Heard(NamedTuple):
    """An announcement that was kept."""

    message: bytes


Entry = Union[Put, Install, Heard]


def is_journal(data: Content) -> bool:
    return bytes(data[:len(JOURNAL_HEADER)]) == JOURNAL_HEADER


def read_bodies(data: Content) -> Iterator[memoryview]:
    """The bodies of a journal in order; what follows its closed gate is unread."""
    if len(data) <= len(JOURNAL_HEADER) or not is_journal(data):
        raise Refused("this is no store: it does not begin with a journal's header")
    front = Front(data)
    front.word(JOURNAL_HEADER)
    while front.take(1) == OPEN_GATE:
        yield front.take(front.number(8, MAX_BODY))


def read_entry(body: Content) -> Entry:
    """What a body says."""
    front = Front(body)
    which = front.number(1, 3)
    if which == 3:
        return Heard(bytes(front.take(front.left())))
    rid = bytes(front.take(20))
    if which == 1:
        count = front.number(4, MAX_PUT_OBJECTS)
        entry: Entry = Put(rid, [front.object() for _ in range(count)])
    elif which == 2:
        entry = Install(rid, bytes(front.take(20)), front.remotes())
    else:
        raise Refused(f"{which} begins no entry")
    if front.left():
        raise Refused(f"at byte {front.place} of an entry: bytes follow it")
    return entry


def write_entry(entry: Entry) -> bytes:
    if isinstance(entry, Put):
        objects = b"".join(write_object(found) for found in entry.objects)
        return b"\x01" + entry.rid + len(entry.objects).to_bytes(4, "big") + objects
    if isinstance(entry, Install):
        return b"\x02" + entry.rid + entry.identity + write_remotes(entry.remotes)
    return b"\x03" + entry.message


def write_journal(entries: Iterable[Entry]) -> bytes:
    bodies = [write_entry(entry) for entry in entries]
    records = b"".join(OPEN_GATE + len(body).to_bytes(8, "big") + body for body in bodies)
    return JOURNAL_HEADER + records + CLOSED_GATE


@dataclass
class Repository:
    """What stands of a repository, and each install that led to it."""

    rid: bytes
    objects: dict[bytes, Object] = field(default_factory=dict)
    identity: bytes | None = None
    remotes: dict[bytes, bytes] = field(default_factory=dict)
    installs: list[Install] = field(default_factory=list)

    def apply(self, entry: Put | Install) -> None:
        if isinstance(entry, Put):
            for found in entry.objects:
                self.objects.setdefault(name_of(*found), found)
        else:
            self.identity = entry.identity
            self.remotes.update(entry.remotes)
            self.installs.append(entry)

    def claims(self) -> Iterator[Claim]:
        """What the commits say that its installs name: signed refs and changes of identity."""
        for install in self.installs:
            yield from identity_claims(self.objects, install.identity)
            for node, commit in install.remotes.items():
                yield refs_claim(self.objects, node, commit)


def read_store(data: Content) -> dict[bytes, Repository]:
    """The repositories of a store, rising by name. Nothing is judged anew."""
    found: dict[bytes, Repository] = {}
    for number, body in enumerate(read_bodies(data), 1):
        try:
            entry = read_entry(body)
        except Refused as error:
            raise Refused(f"entry {number}: {error}") from error
        if not isinstance(entry, Heard):
            found.setdefault(entry.rid, Repository(entry.rid)).apply(entry)
    return {rid: found[rid] for rid in sorted(found)}
