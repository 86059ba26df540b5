"""The Python programs that the package has beside the simulator."""

from dataclasses import dataclass


@dataclass(frozen=True)
class Tool:
    """A program of tools/, which is installed as `fast-NAME`, and the document that tells of it."""

    name: str
    about: str
    document: str


TOOLS = (
    Tool("explore", "runs a program on each machine of a space", "EXPLORE.md"),
    Tool("pipeline", "shows a pipeline trace as one HTML page", "INSIGHT.md"),
    Tool("profile", "shows where the cycles of a run went", "INSIGHT.md"),
)
LIBRARIES = ("explore_lib", "insight_lib", "shared_lib")
