"""ember as an engine of trimesh."""
from __future__ import annotations

from typing import Any, Sequence

from .booleans import boolean


def _engine(meshes: Sequence[Any], operation: str, **options: Any) -> Any:
    options.pop("check_volume", None)
    return boolean(list(meshes), operation, **options).to_trimesh()


def install_in_trimesh(name: str = "ember") -> None:
    """Puts ember into trimesh's table of engines, so that `a.difference(b, engine="ember")` calls it.

    Options of `boolean` may be given there, too. Give check_volume=False: ember takes meshes that trimesh doesn't count as volumes, such
    as those that intersect themselves. Raises ImportError if there is no trimesh, or one without such a table.
    """
    import trimesh

    engines = getattr(trimesh.boolean, "_engines", None)
    if not isinstance(engines, dict):
        raise ImportError(f"trimesh {trimesh.__version__} has no table of engines that ember knows; call ember.boolean, which takes its meshes")
    engines[name] = _engine
