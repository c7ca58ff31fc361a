"""Which jobs another site may have: those for which it has nodes enough, by the roster that is known here."""
from __future__ import annotations

from ..site.answers import Answer
from ..site.looks import Job, is_granted_to, told_of
from ..site.site import Site

NOT_ELIGIBLE = b"refused 7\n"


class Eligibility:
    """Has grants asked that other sites can use."""

    def __init__(self, here: str, site: Site):
        self.here = here
        self.site = site

    async def grant(self, job: str, peer: str) -> Answer:
        """The answer to the asking for a grant. A site that can never run a job gets neither the job nor its script."""
        for name, told in (await told_of(self.site, [job])).items() if peer != self.here else ():
            if not self.fits(told, peer) and not is_granted_to(told, peer):
                words = f"{name} needs {told['nodes']} nodes, and {peer} has {self.site.roster[peer]} by the roster that is known here"
                return Answer(NOT_ELIGIBLE, words, 1)
        return await self.site.ask(f"grant {job} {peer}")

    def fits(self, job: Job, peer: str) -> bool:
        """Whether a site has nodes enough for a job; of one that the roster hasn't the site says so."""
        return peer == self.here or job["nodes"] <= self.site.roster.get(peer, job["nodes"])

    def may_read(self, job: Job, peer: str) -> bool:
        """Whether a site may have the script of a job: it holds the job, can run it, and hasn't begun it."""
        return is_granted_to(job, peer) and self.fits(job, peer) and not job["begun"] and job["letter"] is not None
