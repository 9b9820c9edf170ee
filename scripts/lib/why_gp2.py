"""How the parts of `why` run `gp2`."""
import subprocess


class Stop(Exception):
    """Ends the script with a line on standard error and a status."""

    def __init__(self, line, status=1):
        super().__init__(line)
        self.line, self.status = line, status


class Gp2:
    def __init__(self, program):
        self.program = program
        self.told = set()

    def run(self, words, keep=True, seconds=None):
        """The status, standard output (nothing if it is not to be kept), and the lines of standard error.
        The status is None if it took longer than so many seconds."""
        import sys
        try:
            ran = subprocess.run([self.program, *words], stdin=subprocess.DEVNULL, timeout=seconds,
                                 stdout=subprocess.PIPE if keep else subprocess.DEVNULL, stderr=subprocess.PIPE)
        except subprocess.TimeoutExpired:
            return None, "", []
        except OSError as error:
            raise Stop(f"{self.program}: {error.strerror}")
        lines = ran.stderr.decode("utf-8", "replace").splitlines()
        own = [it for it in lines if it.startswith("gp2: ")]  # of the script ./gp2, such as that nothing is proved
        for line in own:
            if line not in self.told:
                print(line, file=sys.stderr)
            self.told.add(line)
        if own and ran.returncode not in (0, 1, 2, 3, 4, 5, 6, 7, 8, 9, 10, 11):
            raise Stop("gp2 did not run", ran.returncode)
        return ran.returncode, ran.stdout.decode("latin-1") if keep else "", [it for it in lines if it not in own]
