"""The rules of revision paths, as plainly as they can be said: each function searches the accepted paths from the first. They check the model,
which keeps a document as parents and bodies.

A path is accepted if it fits the paths accepted before it. A revision is a pair of its position and its id.
"""
import itertools
from dataclasses import dataclass


@dataclass(frozen=True)
class Path:
    """A path as replication sends it: the position of its newest revision, the ids from the newest on, and whether the newest is deleted."""

    start: int
    ids: list
    is_deleted: bool

    def revisions(self):
        """Returns the revisions, newest first."""
        return [(self.start - place, name) for place, name in enumerate(self.ids)]


def parent_of(accepted, revision):
    """Returns the parent of a revision, from the first path that gives one; None if no path does."""
    for path in accepted:
        for child, parent in itertools.pairwise(path.revisions()):
            if child == revision:
                return parent
    return None


def fits(accepted, path):
    """Whether the path gives no revision another parent than the accepted paths do."""
    return all(parent_of(accepted, child) in (None, parent) for child, parent in itertools.pairwise(path.revisions()))


def known_in(accepted):
    """Returns the revisions of all paths, each once."""
    return sorted({revision for path in accepted for revision in path.revisions()})


def is_deleted(accepted, leaf):
    """Whether a leaf is deleted: the first path with the leaf as its newest revision decides."""
    return next(path.is_deleted for path in accepted if path.revisions()[0] == leaf)


def leaves_of(accepted):
    """Returns the leaves, best first: a leaf that is not deleted, then the higher position, then the greater id."""
    parents = {parent for path in accepted for parent in path.revisions()[1:]}
    leaves = [revision for revision in known_in(accepted) if revision not in parents]
    return sorted(leaves, key=lambda leaf: (not is_deleted(accepted, leaf), *leaf), reverse=True)


def served_of(accepted):
    """Returns the revisions that a document shows: the winner and then its conflicts; none if the winner, the best leaf, is deleted."""
    return [leaf for leaf in leaves_of(accepted) if not is_deleted(accepted, leaf)]
