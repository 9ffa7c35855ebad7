"""The repository that is made by rule of so many commits, as rad_vectors makes it.

One delegate, whose key is 32 bytes 01 and whose signature is 64 of them, signs the branch master.
Its last commit ends a line in which each commit has one file with its number. That of one commit is
the example of docs/FORMATS.md.
"""
from __future__ import annotations

from formats import (DIRECT_DELEGATE, DIRECTORY, Claim, Kind, Made, Object, Offer, TreeEntry,
                     accept_line, write_tree)

NODE = b"\x01" * 32
AUTHOR = b"author a <a@b> 0 +0000\ncommitter a <a@b> 0 +0000\n\n"
DOCUMENT = ('{"delegates":["%s"],"payload":{"xyz.radicle.project":{"defaultBranch":"master",'
            '"description":"","name":"gen"}},"threshold":1}') % (DIRECT_DELEGATE + NODE.hex())


def add_commit(made: Made, mode: bytes, entries: dict[bytes, bytes], parent: bytes | None,
               word: bytes) -> bytes:
    """A commit of one tree, as the generator writes it."""
    tree = made.add(Kind.TREE, write_tree(TreeEntry(mode, *entry) for entry in entries.items()))
    lines = b"tree %s\n" % tree.hex().encode()
    lines += b"parent %s\n" % parent.hex().encode() if parent else b""
    return made.add(Kind.COMMIT, lines + AUTHOR + word + b"\n")


def add_chain(made: Made, count: int) -> bytes:
    """Commits in a line, each with its number in a file; the last one."""
    tip = None
    for number in range(1, count + 1):
        word = b"%d" % number
        tip = add_commit(made, b"100644", {b"n": made.blob(word + b"\n")}, tip, word)
    return tip


class Generated:
    """The generator's repository: its sections, and the commits that hold it."""

    def __init__(self, count: int, document_text: str = DOCUMENT) -> None:
        identity, signed, tips = Made(), Made(), Made()
        self.tip = add_chain(tips, count)
        document = identity.blob(document_text.encode())
        embeds = identity.add(Kind.TREE, write_tree([TreeEntry(b"100644", b"radicle.json",
                                                               document)]))
        self.identity = add_commit(identity, DIRECTORY, {b"embeds": embeds}, None, b"id")
        refs, signature = b"%s refs/heads/master\n" % self.tip.hex().encode(), b"\x01" * 64
        blobs = {b"refs": signed.blob(refs), b"signature": signed.blob(signature)}
        self.sigrefs = add_commit(signed, b"100644", blobs, None, b"sigrefs")
        self.sections = [[made[name] for name in sorted(made)] for made in (identity, signed, tips)]
        self.offer = Offer(document, self.identity, {NODE: self.sigrefs})
        self.keyring = accept_line(Claim(NODE, refs, signature, self.sigrefs))

    def objects(self) -> list[Object]:
        return [found for section in self.sections for found in section]
