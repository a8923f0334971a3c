"""validate.py [--quick] OUT COMMAND..: known answers, limits and reeds, through the driver that COMMAND starts.
Prints measured beside expected; without --quick also measures the limits and writes the pictures into OUT."""
import os
import sys

from channels import Drive
from report import Report
import known
import limits
import reeds


def measure(report, check, *given):
    """Runs a part of the table. Channels far from any answer may leave nothing to measure: that is a failure too."""
    try:
        check(*given)
    except (ArithmeticError, IndexError, StopIteration, ValueError) as error:
        report.exact(f"the part '{check.__name__}' can be measured", False, repr(error))


def main():
    words = sys.argv[1:]
    quick = words[:1] == ["--quick"]
    out, command = words[quick], words[quick + 1:]
    os.makedirs(out, exist_ok=True)
    drive, report = Drive(command), Report()
    print("each line: what, measured, expected, unit, how far apart")
    for check in known.ALL + reeds.ALL:
        measure(report, check, drive, report, not quick, out)
    report.head("All of these")
    report.exact("no call was refused: every run took all its steps", drive.refused == 0,
                 f"{drive.refused} refused")
    if not quick:
        for check in limits.ALL + reeds.LIMITS:
            measure(report, check, drive, report, out)
    drive.close()
    print(f"\n{drive.steps} steps taken")
    print(f"{report.passed} passed, {report.failed} failed")
    return report.failed != 0


if __name__ == "__main__":
    sys.exit(main())
