"""Counts what passes, and tells what fails."""


class Judge:
    """The counts of a run of tests."""

    def __init__(self):
        self.passed = self.failed = self.skipped = 0

    def judge(self, name, seen, wanted):
        """Judges what was seen by what is wanted."""
        if seen == wanted:
            self.passed += 1
        else:
            self.failed += 1
            print(f"web {name}: {str(seen)[:400]!r}, wanted {str(wanted)[:400]!r}")

    def count(self, name, said):
        """Counts what another program has judged: {same, different}, with a text for each that differs."""
        self.passed += said["same"]
        self.failed += len(said["different"])
        for text in said["different"][:20]:
            print(f"web {name}: {text}")

    def skip(self, name, why):
        """Counts a part that cannot be run here."""
        self.skipped += 1
        print(f"web {name}: skipped, {why}")

    def summary(self):
        skipped = f", {self.skipped} skipped" if self.skipped else ""
        return f"{self.passed} passed, {self.failed} failed{skipped}"
