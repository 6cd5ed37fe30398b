"""The keys of a project file: which the program reads, which it refuses, and which it passes over though they matter
to uv.

All other keys are passed over. docs/MANUAL.md has the same table.
"""

from __future__ import annotations

READ = {
    "project.name": "",
    "project.version": "absent it is 0",
    "project.dynamic": "refused where it names dependencies, optional-dependencies or requires-python",
    "project.requires-python": "absent every interpreter is supported",
    "project.dependencies": "",
    "project.optional-dependencies": "each is an extra",
    "dependency-groups": "each is the extra group-NAME",
    "tool.uv.constraint-dependencies": "",
    "tool.uv.override-dependencies": "",
    "tool.uv.environments": "",
    "tool.uv.resolution": "highest, lowest or lowest-direct",
    "tool.uv.prerelease": "under the strict profile if-necessary-or-explicit alone",
    "tool.uv.fork-strategy": "fewest (the default), requires-python or deep",
    "tool.uv.sources": "refused by the strict profile; `index` or else none, and `marker`: where releases come from",
}
# What the strict profile refuses; the wide one reads the first and the last one, refuses the second and passes the
# others over.
REFUSED = ["sources", "conflicts", "index", "extra-index-url", "find-links", "workspace", "dev-dependencies"]
REFUSED_BY_WIDE = ["conflicts"]
PASSED_OVER_BY_WIDE = {
    "index": "`tools/lock` and `tools/index` ask it",
    "extra-index-url": "`tools/lock` and `tools/index` ask it, before the usual index",
    "find-links": "`tools/lock` and `tools/index` look there first",
}
PRERELEASES = ["disallow", "allow", "if-necessary", "explicit", "if-necessary-or-explicit"]
PASSED_OVER = {
    "exclude-newer": "`tools/index --before DATE` leaves newer files out of the index",
    "exclude-newer-package": "`tools/index --before DATE` leaves newer files out of the index, for all packages",
    "dependency-metadata": "`tools/lock` and `tools/index` take it in the place of what a release says",
    "default-groups": "`tools/sync` installs them; elsewhere groups are asked for by name",
    "dependency-groups": "a group's own requires-python isn't looked at",
    "required-environments": "the lock holds for all environments; `tools/coverage` looks whether each has files",
    "exclude-dependencies": "all dependencies are locked",
    "index-url": "`tools/lock`, `tools/index` and `tools/sync` ask it; the program asks no network",
    "index-strategy": "of each name the first index that has it is asked, and no other",
    "no-index": "`tools/lock PROJECT INDEX` by an index folder asks no package index",
    "no-build": "`--no-build` of `tools/lock` and `tools/index` builds nothing",
    "no-build-package": "`tools/lock --build NAME` names what is built of an index",
    "no-binary": "wheels and source distributions aren't chosen from",
    "no-binary-package": "wheels and source distributions aren't chosen from",
    "no-sources": "sources count",
    "upgrade": "`tools/lock --upgrade`",
    "upgrade-package": "`tools/lock --upgrade-package NAME`",
    "build-constraint-dependencies": "what builds need isn't locked",
    "extra-build-dependencies": "what builds need isn't locked",
    "managed": "",
    "package": "",
}
# PEP 621 and its followers
PROJECT = [
    "name", "version", "description", "readme", "requires-python", "license", "license-files", "authors", "maintainers",
    "keywords", "classifiers", "urls", "scripts", "gui-scripts", "entry-points", "dependencies",
    "optional-dependencies", "dynamic", "import-names", "import-namespaces",
]  # fmt: skip
TABLES = ["project", "build-system", "dependency-groups", "tool"]
UV = [it[len("tool.uv.") :] for it in READ if it.startswith("tool.uv.")] + REFUSED + list(PASSED_OVER)
