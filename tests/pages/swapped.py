#!/usr/bin/env python3
"""A message with two fields in each other's place, in code and definitions alike, is proved equal and is wrong: check.py has to find it, in reading and in writing."""
import shutil
import subprocess
import sys
import tempfile
from pathlib import Path

HERE = Path(__file__).resolve().parent
ROOT = HERE.parents[1]
# a file, and the two words in it that change places
SWAPS = (
    ('crates/message_parts/specs/Watched.antt', 'modules = celsius_of', 'enclosure = celsius_of'),
    ('crates/message_probes/specs/Build.antt', 'stopped3 = flag_of', 'failed3 = flag_of'),
    ('crates/message_charger/specs/Take.antt', 'm.max', 'm.min'),
    ('crates/message_extra/specs/Build.antt', 'pt1ksc = celsius_of', 'pt1ksd = celsius_of'),
    ('crates/message_inputs/specs/Take.antt', 'm.colibri', 'm.switch5'),
    ('crates/message_vehicle/specs/Build.antt', 'present = byte_of', 'minimum = byte_of'),
    ('crates/message_vehicle/specs/Take.antt', 'pos m.capacity', 'pos m.target'),
    ('crates/older_power/specs/Build.antt', 'plug = label.plug_of', 'capacity = capacity_of'),
)


def checked(path, first, second):
    """What check.py says of a copy of the definitions in which the two words changed places."""
    with tempfile.TemporaryDirectory() as folder:
        for crate in ('page_table', 'page_charger', 'page_rows', 'message_types', 'message_parts', 'message_charger', 'message_safety', 'message_probes', 'message_inputs',
                      'message_extra', 'message_sequence', 'message_vehicle', 'older_types', 'older_power'):
            # but for out/, which `rt ci` writes meanwhile
            shutil.copytree(ROOT / 'crates' / crate, Path(folder, 'crates', crate), ignore=shutil.ignore_patterns('out'))
        file = Path(folder, path)
        text = file.read_text()
        if text.count(first) != 1 or text.count(second) != 1:
            sys.exit(f'swapped.py: {path} has {first!r} or {second!r} not once')
        file.write_text(text.replace(first, '\0').replace(second, first).replace('\0', second))
        return subprocess.run([sys.executable, HERE / 'check.py', folder], capture_output=True, text=True)


for path, first, second in SWAPS:
    told = checked(path, first, second)
    if told.returncode == 0 or 'the document says' not in told.stderr:
        sys.exit(f'swapped.py: {first!r} and {second!r} in each other\'s place were not found: {told.stdout}{told.stderr}')
print('pages: two fields in each other\'s place are found, in reading and in writing')
