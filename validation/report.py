"""The printed table: measured beside expected, and what passed."""


class Report:
    def __init__(self):
        self.passed = self.failed = 0

    def head(self, title, source=""):
        print(f"\n{title}" + (f"   [{source}]" if source else ""))

    def row(self, what, measured, expected, unit, tolerance=None, relative=True, digits=6):
        """A line of the table; with a tolerance it is a test, without it is only shown."""
        off = measured - expected
        if relative:
            off = off / expected if expected else float("inf")
        apart = f"{100 * off:+.4f} %" if relative else f"{off:+.{digits}g}"
        said = ""
        if tolerance is not None:
            good = abs(off) <= tolerance
            self.count(good)
            allowed = f"{100 * tolerance:.4g} %" if relative else f"{tolerance:g}"
            said = f"{'ok' if good else 'FAILED'} (within {allowed})"
        print(f"  {what:<64} {measured:>13.{digits}f} {expected:>13.{digits}f} {unit:<6} {apart:>12}  {said}")

    def exact(self, what, good, detail=""):
        self.count(good)
        print(f"  {what:<64} {detail:<42} {'ok' if good else 'FAILED'}")

    def say(self, text):
        print("  " + text)

    def count(self, good):
        if good:
            self.passed += 1
        else:
            self.failed += 1
