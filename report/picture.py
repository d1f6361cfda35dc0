"""A picture of a page, by headless Chromium."""
import os
import shutil
import subprocess
import tempfile
from pathlib import Path

from .faults import Fault

# the whole page of a short night
WIDTH, HEIGHT = 1120, 2400
PATIENCE = 60


def take(page, picture):
    program = shutil.which('chromium')
    if program is None:
        raise Fault('chromium, which takes the picture, is not installed (on Debian: apt-get install chromium)')
    with tempfile.TemporaryDirectory() as profile:
        shot = Path(profile) / 'page.png'
        # Chromium's sandbox does not run for root
        sandbox = ['--no-sandbox'] if os.geteuid() == 0 else []
        command = [program, '--headless', *sandbox, f'--user-data-dir={profile}/profile', '--hide-scrollbars', f'--window-size={WIDTH},{HEIGHT}',
                   f'--screenshot={shot}', Path(page).resolve().as_uri()]
        try:
            done = subprocess.run(command, capture_output=True, timeout=PATIENCE)
        except subprocess.TimeoutExpired as late:
            raise Fault(f'{picture}: Chromium took no picture in {PATIENCE} s') from late
        if not shot.exists():
            raise Fault(f'{picture}: Chromium took no picture: {done.stderr.decode(errors="replace").strip()}')
        try:
            shutil.copyfile(shot, picture)
        except OSError as error:
            raise Fault(f'{picture}: cannot be written: {error.strerror}') from error
