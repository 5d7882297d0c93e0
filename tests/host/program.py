"""The program lup in a folder of its own."""

import os
import subprocess

# A fault that a sanitizer finds ends the program with 99, which no test expects.
SANITIZED = {'ASAN_OPTIONS': 'exitcode=99:detect_leaks=1', 'UBSAN_OPTIONS': 'exitcode=99', 'LSAN_OPTIONS': 'exitcode=99'}
QUICK = {**SANITIZED, 'ASAN_OPTIONS': 'exitcode=99:detect_leaks=0'}


class Program:
    """Runs the program in the folder; names of files are given as they stand there."""

    def __init__(self, path, folder):
        self.path, self.folder, self.calls = os.path.abspath(path), folder, 0

    def at(self, name):
        return os.path.join(self.folder, name)

    def put(self, name, data):
        with open(self.at(name), 'wb') as file:
            file.write(data)
        return name

    def get(self, name):
        with open(self.at(name), 'rb') as file:
            return file.read()

    def run(self, *words, environment=SANITIZED, **more):
        """Exit status, standard output and standard error."""
        self.calls += 1
        pipes = {'stdout': subprocess.PIPE, 'stderr': subprocess.PIPE, 'stdin': subprocess.DEVNULL, 'timeout': 60, **more}
        if 'input' in more:
            del pipes['stdin']
        done = subprocess.run([self.path, *words], cwd=self.folder, env=environment, **pipes)
        return done.returncode, (done.stdout or b'').decode(errors='surrogateescape'), (done.stderr or b'').decode(errors='replace')

    def files(self):
        """What stands in the folder: a file's bytes, and what is no plain file by name alone."""
        found = {}
        for folder, _, names in os.walk(self.folder):
            found[folder] = None
            for name in names:
                path = os.path.join(folder, name)
                found[path] = open(path, 'rb').read() if os.path.isfile(path) else None
        return found
