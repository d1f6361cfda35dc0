"""Pages in headless Chromium."""
import struct
import subprocess
import tempfile
import zlib
from pathlib import Path


def dumped(page):
    """The page as Chromium has read it."""
    with tempfile.TemporaryDirectory() as profile:
        command = ['chromium', '--headless', '--no-sandbox', f'--user-data-dir={profile}', '--dump-dom', Path(page).resolve().as_uri()]
        return subprocess.run(command, capture_output=True, check=True, timeout=60).stdout.decode()


def pictured(path):
    """Width and height of a PNG, and how many different rows of points it has."""
    data = Path(path).read_bytes()
    assert data[:8] == b'\x89PNG\r\n\x1a\n', 'no PNG'
    at, pixels, header = 8, b'', None
    while at < len(data):
        size, kind = struct.unpack('>I4s', data[at:at + 8])
        body = data[at + 8:at + 8 + size]
        header = body if kind == b'IHDR' else header
        pixels += body if kind == b'IDAT' else b''
        at += 12 + size
    width, height = struct.unpack('>II', header[:8])
    rows = zlib.decompress(pixels)
    wide = len(rows) // height
    return width, height, len({rows[n:n + wide] for n in range(0, len(rows), wide)})
