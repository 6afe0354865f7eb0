"""What the systems that are measured have in common."""
import re
import time

from . import processes


class Server:
    """A system that runs as the process `self.process`, for the documents `self.corpus`."""

    # how a reply ends, as client/client.c names it; the code of a right reply; the kinds of requests that the system has
    framing = "http"
    code = 0
    kinds = ("get", "equality", "falling", "scan", "commit")

    def connected(self):
        """Returns the first client, as soon as the system accepts one. Ends the run if the system ends, or does not accept one in half a minute."""
        for _ in range(600):
            time.sleep(0.05)
            try:
                return self.first_client()
            except OSError:
                if self.process.poll() is not None:
                    break
        raise SystemExit(f"{self.name} does not start: {self.last_words()}")

    def first_client(self):
        return self.client()

    def last_words(self):
        """Returns what the system wrote when it did not start; empty if that is not kept."""
        return ""

    def pids(self):
        return [self.process.pid]

    def processor(self):
        return processes.processor(self.pids())

    def size(self):
        return processes.memory(self.pids())

    def records(self, requests):
        """Returns for each request what the client in C takes: the code of a right reply, a text of it, and the bytes to send."""
        client = self.client()
        found = [(self.code, one.answer.last.encode() if one.answer else b"", client.prepare(one)) for one in requests]
        client.socket.close()
        return found

    def sockets(self, number):
        """Returns connections for the client in C, ready for requests."""
        return [self.client().socket for _ in range(number)]

    def check(self, kinds):
        """Asks a few requests of each kind of query, and compares the replies whole: the ids of their documents, in order."""
        client = self.client()
        for kind in set(kinds) & {"get", "equality", "falling", "scan"}:
            for request in self.corpus.requests(kind, 3, "check"):
                reply = client.reply(client.prepare(request))
                if not request.answer.fits([one.decode() for one in re.findall(rb"\bd\d{7}\b|\bcustomer:\d{7}\b", reply)]):
                    raise SystemExit(f"{self.name}: {request} was answered by {reply[:500]}")
        client.socket.close()

    def settle(self):
        """Nothing to do after a load."""

    def close(self):
        self.process.kill()
        self.process.wait()
