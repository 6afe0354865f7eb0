"""Counts the checks of a script that passed and failed."""
import shutil


class Tally:
    """Counts checks, and prints those that failed, each on a line that begins with FAILED."""

    def __init__(self):
        self.passed = self.failed = 0

    def expect(self, name, found, expected):
        """Counts a check, which passes if what was found is what was expected."""
        if found == expected:
            self.passed += 1
        else:
            self.failed += 1
            print(f"FAILED {name}: {found!r}\n  expected {expected!r}", flush=True)

    def count(self, name, faults):
        """Counts a check, which passes if it has no faults."""
        if faults:
            self.failed += 1
            print(f"FAILED {name}: {'; '.join(map(str, faults))}", flush=True)
        else:
            self.passed += 1

    def needs(self, command):
        """Whether a command that the next checks need is installed. If not, they are left out, and that counts as a failed check."""
        is_installed = shutil.which(command) is not None
        if not is_installed:
            self.failed += 1
            print(f"FAILED the command {command} is not installed: the checks that need it are left out", flush=True)
        return is_installed

    def end(self):
        """Prints the last line, and returns the exit status. A script without a check has failed."""
        if self.passed + self.failed == 0:
            self.failed = 1
            print("FAILED there was no check")
        print(f"{self.passed} passed, {self.failed} failed")
        return 1 if self.failed else 0
