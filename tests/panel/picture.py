#!/usr/bin/env python3
"""picture.py PNG [WIDTH]: a picture of the panel while the March night is appended to its log, at its last low insulation reading."""
import os
import sys
import tempfile
from pathlib import Path

import seen
from browser import Browser
from depot import ROOT, Nightlog, Panel, shown
from found import answers

POSTS, LOG = ROOT / 'nights/march.posts', ROOT / 'nights/march.log'


def main(path, width=1100):
    lines = shown(LOG)
    last = max(k for k, answer in enumerate(answers(POSTS, LOG), 1) if answer and answer[1])
    path = Path(path).resolve()
    with tempfile.TemporaryDirectory() as room:
        os.chdir(room)
        log = Path('night.log')
        log.touch()
        with Nightlog(log) as nightlog, Panel(POSTS, log) as panel, Browser() as browser:
            tab = seen.opened(browser, panel)
            tab.call('Emulation.setDeviceMetricsOverride', width=int(width), height=700, deviceScaleFactor=1, mobile=False)
            tab.call('Emulation.setScrollbarsHidden', hidden=True)
            nightlog.append(*lines[:last])
            seen.read_to(tab, last)
            tab.pictured(path)


if __name__ == '__main__':
    main(*sys.argv[1:])
