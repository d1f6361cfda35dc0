"""Two pictures, point by point, by headless Chromium."""
import base64
import json
import tempfile
from pathlib import Path

import dom
from browser import dumped

# Points at the edges of letters and lines may differ between machines: squares of so many points are compared by their mean, of 255, and so many may differ.
SIDE, NEAR, FEW = 8, 40, 50

PAGE = '''<!DOCTYPE html><title></title><img src="data:image/png;base64,{}"><img src="data:image/png;base64,{}"><p></p><script>
function means(image) {{
  const canvas = document.createElement("canvas"), side = {side};
  canvas.width = image.naturalWidth; canvas.height = image.naturalHeight;
  const drawing = canvas.getContext("2d");
  drawing.drawImage(image, 0, 0);
  const points = drawing.getImageData(0, 0, canvas.width, canvas.height).data, across = Math.ceil(canvas.width / side);
  const found = new Array(across * Math.ceil(canvas.height / side)).fill(0);
  for (let at = 0; at < points.length; at += 4) {{
    const point = at / 4, y = Math.floor(point / canvas.width), x = point - y * canvas.width;
    found[Math.floor(y / side) * across + Math.floor(x / side)] += (points[at] + points[at + 1] + points[at + 2]) / 3 / side / side;
  }}
  return found;
}}
onload = () => {{
  const [one, other] = [...document.images], sizes = [one, other].map(image => [image.naturalWidth, image.naturalHeight]);
  const left = means(one), right = means(other);
  const differ = left.filter((mean, place) => Math.abs(mean - right[place]) > {near}).length;
  document.querySelector("p").textContent = JSON.stringify({{sizes, differ}});
  [...document.images].forEach(image => image.remove());
}};
</script>'''


def differing(one, other):
    """How many squares differ; the pictures must have one size."""
    images = (base64.b64encode(Path(path).read_bytes()).decode() for path in (one, other))
    with tempfile.TemporaryDirectory() as folder:
        page = Path(folder) / 'pictures.html'
        page.write_text(PAGE.format(*images, side=SIDE, near=NEAR))
        told = json.loads(dom.read(dumped(page)).one('p').text())
    assert told['sizes'][0] == told['sizes'][1] != [0, 0], told
    return told['differ']
