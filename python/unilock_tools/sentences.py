"""A refusal in sentences: which requirement of which release is the cause, and why other versions don't count."""

from __future__ import annotations

import difflib
from pathlib import Path
from typing import Any, Callable, Dict, Iterator, List, Optional, Tuple

from . import documents, folders, labels, markers
from .printing import listed
from .project import Project
from .readings import Requirement, requirement_of
from .refusal import Base, Cut, Need, Node, Python, Refusal, Step, Term, used
from .verdicts import bound_holds
from .versions import NoReading, Version, meets, specifiers_of, version
from .worlds import marker_of

Named = Tuple[str, Requirement]


class Teller:
    """Tells a refusal of a project by its index folder."""

    def __init__(self, project: Project, index: str, refusal: Refusal) -> None:
        self.project, self.index, self.refusal = project, index, refusal
        self.documents: Dict[str, Optional[Dict[str, Any]]] = {}

    def document(self, name: str) -> Optional[Dict[str, Any]]:
        if name not in self.documents:
            self.documents[name] = documents.load(self.index, name)
        return self.documents[name]

    def usable(self, name: str) -> List[Tuple[str, Dict[str, Any]]]:
        return documents.releases_of(self.document(name))

    def release(self, name: str, text: str) -> Dict[str, Any]:
        wanted = version(text)
        for spelled, entry in self.usable(name):
            found = version(spelled)
            if found is not None and wanted is not None and found.key == wanted.key:
                return entry
        return {}

    def node(self, node: Node, versions: List[str]) -> str:
        """A node at some of its versions, `any version of q` where these are all."""
        if node.name == self.project.name:
            if node.extra is None:
                return "the project"
            return f"the group {node.extra[6:]}" if node.extra.startswith("group-") else f"the extra {node.extra}"
        known = self.usable(node.name)
        if len(versions) > 1 and len(versions) == len(known):
            return f"any version of {node}"
        return f"{node} {listed(versions)}"

    def requirements(self, node: Node, text: str) -> List[Named]:
        """The requirements of one version of a node, each with the place or the text that it stands by."""
        if node.name == self.project.name:
            own = [it for it in self.project.requirements if it.extra in (None, node.extra)]
            settings = [*self.project.constraints, *self.project.overrides]
            return [(it.place, it.requirement) for it in [*own, *settings]]
        found = []
        for required in self.release(node.name, text).get("requires_dist") or []:
            try:
                found.append((f"{node.name} {text}", requirement_of(required)))
            except NoReading:
                continue
        return found

    def behind(self, need: Need, text: str) -> List[Named]:
        """The requirements that a need may come from: on its target, and not false in the refused region's world."""
        known = {**self.refusal.world, "extra": need.node.extra or ""}
        if need.node.name == self.project.name:
            known.pop("extra")
        if "python_full_version" in known:
            known["python_version"] = ".".join(known["python_full_version"].split(".")[:2])
        on = [
            (place, it)
            for place, it in self.requirements(need.node, text)
            if it.name == need.target.name and need.target.extra in (None, *it.extras)
        ]
        return [(place, it) for place, it in on if markers.truth(it.marker, known) is not False] or on

    def need(self, need: Need) -> str:
        """`q 1 needs z: its requirement `z>=2`; the index has no document of z`."""
        by_text: Dict[str, List[str]] = {}
        for text in need.versions:
            for place, it in self.behind(need, text):
                shown = f"{place}: `{it.text}`" if need.node.name == self.project.name else f"`{it.text}`"
                by_text.setdefault(shown, []).append(text)
        causes = " and ".join(by_text) if len(by_text) <= 3 else " and ".join(
            list(by_text)[:2]
        ) + f" and {len(by_text) - 2} more"
        head = f"{self.node(need.node, need.versions)} needs {need.target}"
        if need.permitted:
            head += f" at {listed(need.permitted)}"
        source = self.source_behind(need)
        if source is not None:
            place = f"{labels.PLACE}.{need.target.name}"
            return f"{head} ({place}: it comes from {labels.told(source)})" + self.lack(need, source)
        return f"{head} ({causes or 'a requirement that was changed by the settings'})" + self.lack(need)

    def source_behind(self, need: Need) -> Optional[str]:
        """The source that permits these versions alone, where it is that and no requirement."""
        name = need.target.name
        found = self.project.sources.get(name)
        if found is None:
            return None
        clauses = [it.clauses for _, it in self.behind(need, need.versions[0])]
        if any(self.is_permitted(need, lambda spelled, _: meets(it, read(spelled))) for it in clauses):
            return None
        known = dict(self.refusal.world)
        if "python_full_version" in known:
            known["python_version"] = ".".join(known["python_full_version"].split(".")[:2])
        counting = labels.counting(found, known)
        of = (it for it in counting if self.is_permitted(need, lambda _, entry: labels.source_of(entry) == it))
        return next(of, None)

    def is_permitted(self, need: Need, counts: Callable[[str, Dict[str, Any]], bool]) -> bool:
        """Whether the versions that a need permits are those that count, but for what is never chosen from."""
        name, permitted = need.target.name, {read(it).key for it in need.permitted}
        counted = {read(spelled).key: spelled for spelled, entry in self.usable(name) if counts(spelled, entry)}
        others = [spelled for key, spelled in counted.items() if key not in permitted]
        return permitted <= set(counted) and all(self.passed_over(name, it) for it in others)

    def lack(self, need: Need, source: Optional[str] = None) -> str:
        """Why no version is permitted, where none is; `source` where that is for want of releases from there."""
        if need.permitted:
            return ""
        name = need.target.name
        document = self.document(name)
        if document is None:
            return f", and the index has no document of {name}" + self.alike(name)
        known = self.usable(name)
        if not known:
            return f", and the index has no version of {name} that can be used" + self.unusable(name, document)
        if source is not None:
            return f", and {self.unsourced(name, source)}" + self.unusable(name, document)
        reasons = []
        for _, it in self.behind(need, need.versions[0]):
            met = [spelled for spelled, _ in known if meets(it.clauses, read(spelled))]
            if not met:
                has = "of those that were tried, the index" if folders.is_of_tried(self.index) else "the index"
                versions = listed([spelled for spelled, _ in known])
                reasons.append(f"no version of {name} meets `{it.specifiers}`: {has} has {versions}")
            else:
                reasons += [self.passed_over(name, spelled) for spelled in met[:3] if self.passed_over(name, spelled)]
        return (
            ", and " + "; ".join(reasons) if reasons else ", and no version is permitted"
        ) + self.unusable(name, document)

    def unsourced(self, name: str, source: str) -> str:
        """Why no release of a name counts that comes from a source."""
        known = self.usable(name)
        theirs = [spelled for spelled, entry in known if labels.source_of(entry) == source]
        if theirs:
            return "; ".join(self.passed_over(name, spelled) for spelled in theirs[:3])
        return f"no release of {name} comes from {labels.told(source)}; its releases: {labels.releases_told(known)}"

    def alike(self, name: str) -> str:
        """Names of the index that are like one that it doesn't have."""
        known = sorted(it.stem for it in Path(self.index).glob("*.json"))
        near = difflib.get_close_matches(name, known, 2, 0.75)
        return f" (is {' or '.join(near)} meant?)" if near else ""

    def passed_over(self, name: str, spelled: str) -> str:
        """Why a version that a requirement allows isn't chosen from."""
        entry = self.release(name, spelled)
        found = read(spelled)
        if found.is_pre and not self.project.asks_prereleases(name):
            mode = self.project.prereleases
            names = "counts only where a requirement of the project names one"
            why = names if "explicit" in mode else f"doesn't count under the mode {mode}"
            return f"{name} {spelled} is a pre-release, which {why}"
        yanked = entry.get("yanked")
        if yanked is True or isinstance(yanked, str):
            return f"{name} {spelled} is yanked, which counts only where the project asks for `=={spelled}`"
        return ""

    def unusable(self, name: str, document: Dict[str, Any]) -> str:
        told = []
        for entry in document["versions"]:
            spelled = str(entry.get("version", ""))
            fault = documents.unusable(spelled, entry.get("requires_python"), entry.get("requires_dist") or [])
            if fault is not None:
                told.append(f"{name} {spelled} can't be used ({fault})")
        return "".join(f"; {it}" for it in told[:3]) + (
            f"; and {len(told) - 3} more can't be used" if len(told) > 3 else ""
        )

    def python(self, step: Python) -> str:
        bounds = {str(self.release(step.node.name, it).get("requires_python")) for it in step.versions}
        supported = self.project.requires_python
        has = f"`{supported}`" if supported else "all, since it has no requires-python"
        needed = " or ".join(f"`{it}`" for it in sorted(bounds))
        return f"{self.node(step.node, step.versions)} needs Python {needed}, and the project supports {has}"

    def terms(self, terms: List[Term]) -> str:
        """What terms that don't go together say: `q 1 goes only with z 2`, `q 1 and z 2 don't go together`."""
        chosen = [self.node(it.node, it.versions) for it in terms if it.holds]
        lacking = [f"{it.node} {listed(it.versions)}" for it in terms if not it.holds]
        if not chosen and not lacking:
            return "nothing can be chosen"
        if not lacking:
            return f"{chosen[0]} can't be chosen" if len(chosen) == 1 else " and ".join(chosen) + " don't go together"
        if not chosen:
            return f"{' or '.join(lacking)} must be chosen"
        return " and ".join(chosen) + (
            " goes" if len(chosen) == 1 else " go together"
        ) + f" only with {' or '.join(lacking)}"

    def step(self, step: Step) -> str:
        if isinstance(step, Need):
            return self.need(step)
        if isinstance(step, Python):
            return self.python(step)
        if isinstance(step, Base):
            return f"{self.node(step.node, step.versions)} goes only with {step.node.name} at the same version"
        return f"from {step.left} and {step.right}: {self.terms(step.terms)}"

    def head(self) -> Iterator[str]:
        if self.refusal.fork == "-":
            yield "No choice of versions serves the project."
        else:
            yield f"No choice of versions serves the project where {self.refusal.region}."
            values = [f"{key} {value}" for key, value in self.refusal.world.items() if value and value != "0.0.0"]
            if values:
                yield f"Such a machine: {', '.join(values)}."

    def bounds_behind(self) -> Iterator[Python]:
        """Versions that the core permits, and says no more of, whose bound on Python some interpreter doesn't keep."""
        permitted: Dict[str, List[str]] = {}
        for need in self.refusal.core:
            before = permitted.get(need.target.name, need.permitted)
            permitted[need.target.name] = [it for it in before if it in need.permitted]
        asking = {(need.node.name, it) for need in self.refusal.core for it in need.versions}
        for name, versions in permitted.items():
            left = [it for it in versions if (name, it) not in asking and not self.keeps_bound(name, it)]
            if left:
                yield Python(Node(name, None), left)

    def keeps_bound(self, name: str, text: str) -> bool:
        """Whether all interpreters of the project, in the refused region, keep a release's bound."""
        bound = str(self.release(name, text).get("requires_python") or "")
        clauses = specifiers_of(bound)
        return all(bound_holds(clauses, point) for point in self.interpreters(bound))

    def interpreters(self, bound: str) -> Iterator[str]:
        """Interpreters of the refused region, one of each stretch that the bounds tell apart."""
        region = marker_of(self.refusal.region)
        clauses = specifiers_of(self.project.requires_python)
        for point in markers.python_points(region, f"{bound} {self.project.requires_python}"):
            known = {"python_full_version": point, "python_version": ".".join(point.split(".")[:2])}
            if meets(clauses, read(point)) and markers.truth(region, known) is not False:
                yield point

    def lines(self, with_steps: bool) -> Iterator[str]:
        """The whole refusal: where it is, the requirements that clash or the steps that show it, and what follows."""
        yield from self.head()
        if self.refusal.core:
            yield "These requirements alone already clash; with any one of them left out the rest can be served:"
            # The project's own requirements come first.
            for need in sorted(self.refusal.core, key=lambda it: it.node.name != self.project.name):
                yield f"- {self.need(need)}."
            yield from (f"- {self.python(step)}." for step in self.bounds_behind())
        if with_steps or not self.refusal.core:
            yield from self.numbered()
        yield "So the project can't be served." if self.refusal.fork == "-" else "So the project can't be served there."

    def numbered(self) -> Iterator[str]:
        """The steps that the last one rests on, numbered anew."""
        steps = used(self.refusal.steps)
        numbers = {number: k for k, (number, _) in enumerate(steps, 1)}
        for number, step in steps:
            if isinstance(step, Cut):
                step = Cut(numbers.get(step.left, 0), numbers.get(step.right, 0), step.terms)
            yield f"{numbers[number]}. {self.step(step)}."


def read(spelled: str) -> Version:
    found = version(spelled)
    assert found is not None, "usable releases have versions that read"
    return found
