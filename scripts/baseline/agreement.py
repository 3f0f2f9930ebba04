"""What agreement of ends is, asked of their events in order, as scripts/baseline/logs.py reads them: that it follows from
lawful, honest and fresh logs is proved, and is tried here on the logs that were accepted.

  1. Where two ends keep sessions with each other these have the same nonces, and crossed IDs.
  2. Each session that was opened was born at the other end before, once, with these values and crossed IDs.
  3. No attempt bears two sessions.
  4. Of two attempts that were crossed (each end held its own, and neither was born at the other) at most one opens, and
     the other one has ended by then. No attempt of the end that prevails ends by glare.
  5. A session that is kept ends by an override only where the other end has ended it before.
"""
from types import SimpleNamespace as Record


class Ends:
    """What each end holds with each peer, by fingerprints, and what was born, ended and crossed so far."""

    def __init__(self):
        self.held, self.borns, self.ended, self.opened, self.crossed = {}, [], [], set(), set()

    def attempt(self, own, peer):
        thing = self.held.get((own, peer))
        return thing if thing and thing.stage == "opening" else None

    def kept(self, own, peer):
        thing = self.held.get((own, peer))
        return thing.fact if thing and thing.stage == "kept" else None

    def was_born(self, own, peer, attempt):
        """Whether an attempt of an end was born at its peer."""
        return any(at == peer and it.peer == own and (it.n, it.ni) == (attempt.n, attempt.ni) for at, it in self.borns)

    def find_crossed(self):
        for own, peer in list(self.held):
            ours, theirs = self.attempt(own, peer), self.attempt(peer, own)
            if ours and theirs and not self.was_born(own, peer, ours.fact) and not self.was_born(peer, own, theirs.fact):
                self.crossed.add(((own, ours.fact.n), (peer, theirs.fact.n)))

    def different(self):
        """Two ends that keep different sessions with each other."""
        for own, peer in self.held:
            ours, theirs = self.kept(own, peer), self.kept(peer, own)
            if ours and theirs and (ours.ni, ours.nr, ours.near, ours.far) != (theirs.ni, theirs.nr, theirs.far, theirs.near):
                return "two ends keep different sessions"
        return None

    def take(self, own, entry):
        """Goes on by an entry; the answer is what doesn't agree."""
        wrong = None
        if entry.kind == "started":
            self.held[own, entry.peer] = Record(stage="opening", fact=entry)
        elif entry.kind == "born":
            wrong = self.born(own, entry)
        elif entry.kind == "opened":
            wrong = self.open(own, entry)
        elif entry.kind == "confirmed":
            self.held[own, entry.peer].stage = "kept"
        elif entry.kind == "ended":
            wrong = self.end(own, entry)
        return wrong

    def born(self, own, entry):
        self.held[own, entry.peer] = Record(stage="half-open", fact=entry)
        self.borns.append((own, entry))
        alike = [it for at, it in self.borns if at == own and (it.peer, it.n, it.ni) == (entry.peer, entry.n, entry.ni)]
        return "an attempt bears two sessions" if len(alike) > 1 else None

    def open(self, own, entry):
        born = [it for at, it in self.borns if at == entry.peer and it.peer == own and (it.n, it.ni) == (entry.n, entry.ni)]
        if len(born) != 1:
            return f"what is opened was born {len(born)} times"
        if (born[0].nr, born[0].k, born[0].near, born[0].far) != (entry.nr, entry.k, entry.far, entry.near):
            return "what is opened was born with other values"
        self.held[own, entry.peer] = Record(stage="kept", fact=entry)
        self.opened.add((own, entry.n))
        for ours, (peer, n) in self.crossed:
            theirs = self.attempt(peer, own)
            if ours == (own, entry.n) and ((peer, n) in self.opened or theirs and theirs.fact.n == n):
                return "two attempts that were crossed open, or one opens while the other is held"
        return None

    def end(self, own, entry):
        thing = self.held.pop((own, entry.peer))
        if entry.why == "glare" and own > entry.peer:
            return "an attempt of the end that prevails ends by glare"
        nonces = (thing.fact.ni, getattr(thing.fact, "nr", None))
        if entry.why == "override" and thing.stage == "kept" and (entry.peer, own, nonces) not in self.ended:
            return "what is kept ends by an override, and its peer hasn't ended it"
        self.ended.append((own, entry.peer, nonces))
        return None


def disagreement(events):
    """What doesn't agree first, or nothing."""
    ends = Ends()
    for event in events:
        for entry in event.entries:
            wrong = ends.take(event.end.print, entry)
            if wrong:
                return f"line {entry.line}: {wrong}"
        wrong = ends.different()
        if wrong:
            return f"line {event.line}: {wrong}"
        ends.find_crossed()
    return None
