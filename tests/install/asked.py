"""asked.py FILE: the page at the address that a panel has printed, or is about to print, into FILE."""
import sys
import time
import urllib.request
from pathlib import Path

end = time.monotonic() + 10
while not (address := Path(sys.argv[1]).read_text()).endswith('\n') and time.monotonic() < end:
    time.sleep(0.05)
if b'</html>' not in urllib.request.urlopen(address.strip(), timeout=10).read():
    sys.exit('asked: no page')
