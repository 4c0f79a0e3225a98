"""The notebook of the examples, run whole in a kernel of its own."""
import os
import subprocess
import sys
import unittest
import unittest.mock

from support import HERE, PATIENCE, ServerCase, channel_uri

EXAMPLES = HERE.parent / "examples"
CHANNELS = [dict(uri=channel_uri(number), name=name, kind="double", uom=uom) for number, name, uom in ((1, "ROP", "m/h"), (2, "HKLD", "t"))]


class Notebook(ServerCase):
    settings = {"channels": CHANNELS}

    def test_it_runs_whole(self):
        try:
            import matplotlib  # noqa: F401
            import nbclient
            import nbformat
            import pandas  # noqa: F401
        except ImportError as error:
            self.skipTest(f"{error.name} is not there")
        notebook = nbformat.read(EXAMPLES / "well_log.ipynb", 4)
        for cell in notebook.cells:
            # a server that is slow gets more time, as everywhere in the tests
            cell.source = cell.source.replace("colmjurr.connect(URL)", f"colmjurr.connect(URL, ask_timeout={30 * max(1, PATIENCE)})")
        settings = {
            "COLMJURR_URL": self.server.url, "COLMJURR_CHANNELS": " ".join(each["uri"] for each in CHANNELS),
            "PYTHONPATH": str(HERE.parent / "src"), "MPLCONFIGDIR": "/tmp/colmjurr-matplotlib",
        }
        with unittest.mock.patch.dict(os.environ, settings):
            limit = int(180 * max(1, PATIENCE))
            nbclient.NotebookClient(notebook, timeout=limit, startup_timeout=limit, kernel_name="python3").execute()
        kinds = [output.get("data", {}).keys() for cell in notebook.cells if cell.cell_type == "code" for output in cell.outputs]
        self.assertTrue(any("image/png" in each or "text/plain" in each for each in kinds))

    def test_it_is_what_is_written(self):
        done = subprocess.run([sys.executable, str(EXAMPLES / "make_notebook.py"), "--check"], capture_output=True, text=True)
        self.assertEqual(done.returncode, 0, done.stderr)
        done = subprocess.run([sys.executable, str(HERE.parent / "tools" / "write_schema.py"), "--check"], capture_output=True, text=True)
        self.assertEqual(done.returncode, 0, done.stderr)


if __name__ == "__main__":
    unittest.main()
