"""What the tests share: the bench as a person starts it, and its managers."""
import json
import os
import subprocess
import tempfile
from pathlib import Path

HERE = Path(__file__).resolve().parent
FOLDER = HERE.parent
BENCH = FOLDER / "bench"
PROGRAM = os.environ["XA_SCRIPT"]
PYTHON = "/usr/bin/python3"
JOBS = os.environ.get("JOBS", str(min(len(os.sched_getaffinity(0)), 4)))
LIMIT = "600"  # seconds for a run: many run side by side, and one of Java has taken minutes to begin
IS_LONG = os.environ.get("LONG") == "1"


def manager(name, *words):
    """The options for a manager of this folder."""
    command = " ".join([PYTHON, str(FOLDER / "managers" / name), *words])
    return ["--run", f"{command} run 90", "--recover", f"{command} recover"]


def bench(*words, status=None):
    """Runs the bench; what it said, and the points of its report."""
    with tempfile.TemporaryDirectory() as folder:
        report = Path(folder) / "report.json"
        server = ["--server", os.environ["SERVER"]] if os.environ.get("SERVER") else []
        ran = subprocess.run([PYTHON, BENCH, "--program", PROGRAM, "--jobs", JOBS, "--limit", LIMIT, "--json", report,
                              *server, *words],
                             stdout=subprocess.PIPE, stderr=subprocess.STDOUT, text=True, timeout=3_000)
        if status is not None and ran.returncode != status:
            raise AssertionError(f"status {ran.returncode}, and not {status}:\n{ran.stdout}")
        return ran.stdout, json.loads(report.read_text())["points"] if report.exists() else []


def name_of(point):
    return f"{point['point']}, {point['action']}" if point["action"] != "-" else point["point"]


def verdicts(points):
    return {name_of(point): point["verdict"] for point in points}


def found(points):
    """The points that aren't right, with their verdicts."""
    return [f"{name_of(point)}: {point['verdict']}"
            for point in points if point["verdict"] not in ("atomic", "heuristic, told", "not reached")]
