"""Random cases with the results of prost and of the rules, conformance/random_*.txt, which a program of bench/
writes."""
import pathlib
import subprocess
import tempfile

from . import ROOT

ABOUT = "Test vectors at random, by prost."
SOURCE = "bench/src/cases.rs, by prost"

BENCH = ROOT / "bench"
PROGRAM = BENCH / "target" / "release" / "vectors"


def is_built():
    """Whether the program exists, and no source is newer."""
    sources = [BENCH / "Cargo.toml", *(BENCH / "src").rglob("*.rs")]
    return PROGRAM.exists() and all(file.stat().st_mtime <= PROGRAM.stat().st_mtime for file in sources)


def missing(is_named):
    """It takes a minute to build the program, so it has to be named, or built already."""
    if not is_named and not is_built():
        program = PROGRAM.relative_to(ROOT)
        return f"{program} is not built, or older than a source; 'generate.py random_vectors' builds it"
    ready = subprocess.run(["sh", "install.sh", "--no-install"], cwd=BENCH, capture_output=True, text=True)
    # a tool is absent
    if ready.returncode == 77:
        return ready.stdout.strip().removeprefix("not run: ")
    ready.check_returncode()
    return None


def paths():
    return [str(file.relative_to(ROOT)) for file in (ROOT / "conformance").glob("random_*.txt")]


def files():
    subprocess.run(["cargo", "build", "--quiet", "--release", "--bin", "vectors"], cwd=BENCH, check=True)
    with tempfile.TemporaryDirectory() as work:
        subprocess.run([PROGRAM, "--write", work], check=True, stderr=subprocess.DEVNULL)
        return {f"conformance/{file.name}": file.read_bytes() for file in pathlib.Path(work).iterdir()}
