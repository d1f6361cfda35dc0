"""tools/report as it is called."""
import subprocess

from second import ROOT


def called(*words, told='', **more):
    """Exit status, standard output and standard error."""
    done = subprocess.run([ROOT / 'tools/report', *words], input=told, capture_output=True, text=True, timeout=100, **more)
    return done.returncode, done.stdout, done.stderr


def write_page(posts, log, lines, page, *more):
    """From the project's folder, as `make report` does."""
    got = called(*more, posts, log, '-', page, told=''.join(f'{line}\n' for line in lines), cwd=ROOT)
    if got != (0, '', ''):
        raise AssertionError(got)
