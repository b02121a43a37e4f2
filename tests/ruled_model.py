"""A list of filings under rules in plain Python, as the loan desk and the work-study desk keep it."""
from dataclasses import dataclass


@dataclass(frozen=True)
class Filing:
    """A filing of a kind, under its key, with its numbers behind the key."""
    kind: str
    school: int
    number: int
    facts: tuple


class RuledOffice:
    """The filings that stand, the oldest first, each with the outcome of its admission. A desk of its own says which rule a filing
    breaks (`broken`: its number, what stands, and what may stand) and with what it is admitted (`outcome`)."""

    def __init__(self):
        self.filings, self.outcomes = [], []

    def file(self, filing):
        """The answer to a filing, which stands from then on where it is accepted."""
        for position, other in enumerate(self.filings, 1):
            if other == filing:
                return f"again {position} {self.outcomes[position - 1]}"
            if (other.school, other.number) == (filing.school, filing.number):
                return f"refused 15 {position} {filing.number}"
        broken = self.broken(filing)
        if broken:
            return "refused %d %d %d" % broken
        self.outcomes.append(self.outcome(filing))
        self.filings.append(filing)
        return f"accepted {len(self.filings)} {self.outcomes[-1]}"
