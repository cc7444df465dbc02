"""What the tools that draw share: matplotlib without a display, or a clear word where it is missing."""
import os
import sys

SYSTEM = "/usr/bin/python3"  # packages of the system belong to the Python of the system
TRIED = "CATNAP_TOOLS_TRIED_SYSTEM_PYTHON"


def pyplot(tool):
    """matplotlib's pyplot for files alone. Where this Python lacks it, the tool starts again with the system's Python."""
    try:
        import matplotlib
    except ImportError:
        if os.environ.get(TRIED) != "1" and os.path.exists(SYSTEM) and os.path.realpath(sys.executable) != os.path.realpath(SYSTEM):
            os.environ[TRIED] = "1"
            os.execv(SYSTEM, [SYSTEM, *sys.argv])
        print(f"{tool}: the package matplotlib is missing: apt-get install python3-matplotlib, or pip install matplotlib", file=sys.stderr)
        sys.exit(1)
    matplotlib.use("Agg")
    import matplotlib.pyplot

    # the same report gives the same bytes, and text stays text
    matplotlib.rcParams.update({"svg.hashsalt": "catnap", "svg.fonttype": "none", "font.size": 8, "font.family": "sans-serif", "axes.linewidth": 0.6})
    matplotlib.rcParams["path.simplify"] = True
    return matplotlib.pyplot


def save(figure, path, tool):
    """Writes a figure in the format that the file's name says."""
    ending = os.path.splitext(path)[1][1:].lower()
    if ending not in ("svg", "png", "pdf"):
        print(f"{tool}: the name of the picture has to end in .svg, .png or .pdf, and not as {path!r}", file=sys.stderr)
        sys.exit(1)
    metadata = {"svg": dict.fromkeys(("Date", "Creator", "Format", "Type")), "pdf": {"CreationDate": None}, "png": {}}[ending]
    try:
        figure.savefig(path, format=ending, metadata=metadata, dpi=110)
    except OSError as error:
        print(f"{tool}: {path} can't be written: {error}", file=sys.stderr)
        sys.exit(1)
