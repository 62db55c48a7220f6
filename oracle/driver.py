"""Builds the Rust driver and asks it."""

import subprocess
from pathlib import Path

ROOT = Path(__file__).resolve().parent.parent
SOURCE = ROOT.parent / "shared" / "docs" / "src"


def build(source, variant="checked"):
    subprocess.run([ROOT / "oracle" / "build", source, variant], check=True)


def ask(questions, variant="checked", mode=(), seconds=None, errors=None):
    """The driver's answers, one for each question; `mode` may be `("places",)`."""
    run = subprocess.run(
        [ROOT / "target" / "oracle" / variant / "driver", *mode],
        input="".join(question + "\n" for question in questions),
        stdout=subprocess.PIPE,
        stderr=errors,
        text=True,
        check=True,
        timeout=seconds,
    )
    answers = run.stdout.splitlines()
    assert len(answers) == len(questions)
    return answers


def ask_release(question, seconds=10):
    """What the wrapping build says to one question; it may run on without end."""
    try:
        return ask([question], "release", seconds=seconds)[0]
    except subprocess.TimeoutExpired:
        return f"none within {seconds} seconds"
