"""What each program of tools/ answers before anything else: --help and --version."""
from pathlib import Path

VERSION = (Path(__file__).resolve().parents[1] / 'VERSION').read_text().strip()


def asked(name, words, usage=None):
    """Whether the first word asks for the usage, where it is handed in, or for the version; then it is printed."""
    answer = {'--help': usage, '--version': f'{name} (Rokemaipu) {VERSION}\n'}.get(words[0] if words else None)
    if answer is not None:
        print(answer, end='')
    return answer is not None
