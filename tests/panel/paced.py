"""`make panel`'s part behind what it builds: a night at its own pace on a scratch log, and nothing left when it ends."""
import os
import signal
import subprocess
import tempfile
import time
import unittest
from pathlib import Path

import events
from depot import ROOT, hears


class Paced(unittest.TestCase):
    def test_the_march_night(self):
        """F9 stands on post 1 as soon as the recorder's clock has it, and Ctrl-C ends all of it."""
        with tempfile.TemporaryDirectory() as room:
            night = subprocess.Popen([ROOT / 'panel/night', ROOT / 'nights/march.posts', ROOT / 'nights/march.log', '--port', '0'], stdout=subprocess.PIPE,
                                     stderr=subprocess.PIPE, text=True, start_new_session=True, env={**os.environ, 'TMPDIR': room},
                                     preexec_fn=hears)
            begun = time.monotonic()
            with night.stdout, night.stderr:
                port = int(night.stdout.readline().strip().rsplit(':', 1)[1].strip('/'))
                with events.Events(port) as client:
                    state = client.until(lambda state: state['posts'][1]['finding'], 20)
                    self.assertIn('F9 ', state['posts'][1]['finding']['words'][0])
                    self.assertIsNone(state['posts'][0]['finding'])
                    # the night begins at 1,000 and has it at 6,624 ms
                    self.assertEqual(state['posts'][1]['finding']['time'], '0:00:06.624')
                    self.assertGreater(time.monotonic() - begun, 5.5)
                os.killpg(night.pid, signal.SIGINT)
                night.wait(timeout=10)
            self.assertEqual(list(Path(room).iterdir()), [])
            with self.assertRaises(ProcessLookupError):
                os.killpg(night.pid, 0)
