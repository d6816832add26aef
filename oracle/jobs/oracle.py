"""Where the oracle lies, and its answers to a list of jobs."""
import os
import re
import subprocess
import tempfile

from jobs.bits import read_container, write_container

HERE = os.path.dirname(os.path.dirname(os.path.abspath(__file__)))
ROOT = os.path.dirname(HERE)
BUILD = os.path.join(HERE, "build")
ORACLE = os.path.join(BUILD, "oracle")


def without_gaps(text):
    """A plan with five fields to a put line, as the lifted Rust has them."""
    return re.sub(r"^(put( \S+){5}) \S+$", r"\1", text, flags=re.M)


def answers(jobs, *options):
    """What the oracle prints for each of some labels and jobs."""
    with tempfile.TemporaryDirectory() as folder:
        container, out = os.path.join(folder, "jobs"), os.path.join(folder, "answers")
        write_container(container, jobs)
        subprocess.run([ORACLE, *options, "--batch", container, "--out", out], check=True, stdout=subprocess.DEVNULL)
        return [text.decode() for _, text in read_container(out)]
