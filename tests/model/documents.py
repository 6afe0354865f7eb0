"""Documents as revisions, by CouchDB's replication and conflict model."""
import hashlib

from model.values import compact


def text_of(revision):
    return f"{revision[0]}-{revision[1]}"


class Document:
    """The revisions of a document: `parents` has the parent of each known one (None for a root); `bodies` has, for each that was the newest
    of a path, whether it is deleted, and its body."""

    def __init__(self):
        self.parents = {}
        self.bodies = {}

    def leaves(self):
        """Returns the leaves, best first: those that are not deleted, by position and id, and then the deleted ones, by position and id."""
        inner = set(self.parents.values())
        leaves = [revision for revision in self.parents if revision not in inner]
        return sorted(leaves, key=lambda revision: (not self.bodies[revision][0], revision), reverse=True)

    def merge(self, path, deleted, body):
        """Merges a path, newest first. False, with no change, if it gives a known revision another parent."""
        steps = list(zip(path, path[1:]))
        if any(self.parents.get(child) not in (None, parent) for child, parent in steps):
            return False
        for revision in path:
            self.parents.setdefault(revision, None)
        self.parents.update(steps)
        self.bodies.setdefault(path[0], (deleted, body))
        return True

    def edit(self, given, deleted, body):
        """Makes a new edit of a given revision. Returns the new revision; None if the edit conflicts."""
        leaves = self.leaves()
        if given is None and leaves and not self.bodies[leaves[0]][0]:
            return None
        parent = given or (leaves[0] if leaves else None)
        if parent and parent not in leaves:
            return None
        digest = hashlib.md5(compact([deleted, parent and text_of(parent), body]).encode()).hexdigest()
        made = (parent[0] + 1 if parent else 1, digest)
        if made in self.parents:
            return None
        self.merge([made, parent] if parent else [made], deleted, body)
        return made

    def chain(self, revision):
        """Returns a revision and all older ones, newest first."""
        found = []
        while revision:
            found.append(revision)
            revision = self.parents[revision]
        return found

    def served(self, name, conflicts=False):
        """Returns the document as it is served; None if it is deleted."""
        winner, *others = self.leaves()
        deleted, body = self.bodies[winner]
        if deleted:
            return None
        losers = [text_of(revision) for revision in others if not self.bodies[revision][0]]
        return {**body, "_id": name, "_rev": text_of(winner), **({"_conflicts": losers} if conflicts and losers else {})}
