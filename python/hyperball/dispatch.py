"""The package as a backend of networkx: ``networkx.harmonic_centrality(G, backend="hyperball")``, from networkx 3.3 on.

networkx finds it by the entry points of pyproject.toml. It runs only where it is asked for, by that argument or in networkx's
settings, since its figures are estimates.
"""
from __future__ import annotations

from typing import Any, Dict, Union

from hyperball import centralities

_DOCS = """An approximation: estimates by HyperBall, in one run for all nodes instead of a search from each. At log2m 10, the
default, most figures err by 3 % or less. Edges have length 1: `distance` is not taken."""

_PARAMETERS = {
    "log2m : int, optional (default: 10)": "From 4 to 10: 2^log2m registers a node. More are nearer the true figures.",
    "seed : int, optional (default: 0)": "Another seed gives other estimates.",
    "threads : int, optional (default: 0)": "How many threads; 0 for all processors.",
}


def get_info() -> Dict[str, Any]:
    """What networkx asks of a backend when it is imported."""
    about = {"additional_docs": _DOCS, "additional_parameters": _PARAMETERS}
    return {"backend_name": "hyperball", "project": "hyperball", "package": "hyperball",
            "short_summary": "Estimates of harmonic and closeness centrality for large graphs, by HyperBall.",
            "functions": {"harmonic_centrality": about, "closeness_centrality": about}}


def convert_from_nx(graph: Any, **_: Any) -> Any:
    """The graph itself: its edges are read as they are."""
    return graph


def convert_to_nx(result: Any, **_: Any) -> Any:
    """The result itself."""
    return result


def can_run(name: str, args: Any, kwargs: Dict[str, Any]) -> Union[bool, str]:
    """Whether a call can be answered; else why not."""
    distance = kwargs.get("distance", args[2] if len(args) > 2 else None)
    return True if distance is None else "edges have length 1"


def harmonic_centrality(G: Any, *args: Any, **kwargs: Any) -> Any:
    return centralities.harmonic_centrality(_forgotten(G), *args, **kwargs)


def closeness_centrality(G: Any, *args: Any, **kwargs: Any) -> Any:
    return centralities.closeness_centrality(_forgotten(G), *args, **kwargs)


# networkx keeps what a graph was converted to, and warns where that is used again, as it may be old. Here it is the graph
# itself and never old: it need not be kept.
def _forgotten(graph: Any) -> Any:
    cache = getattr(graph, "__networkx_cache__", None) or {}
    cache.get("backends", {}).pop("hyperball", None)
    return graph
