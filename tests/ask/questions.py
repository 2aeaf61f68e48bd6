"""Questions of every verb, with its options, about what the recorded `branches` and `merges` both have."""
from __future__ import annotations

from tests.ask import base

# The verbs that print nothing about a history, or that take their questions from elsewhere.
OTHERS = {"ask", "check-git", "export", "forget", "sources", "stop", "shell", "web"}
# Those that look into the dump itself.
OF_DUMP = {"record", "byte"}
ALL = base.commands(
    "log; log -v trunk; log -q -c 3,2-1 trunk@3; log -g trunk; log -g -v --xml /; log --xml -v trunk; "
    "log --search copy; log -v --search trunk --search-and one; log / trunk branches; show 3; "
    "mergeinfo trunk; mergeinfo trunk branches/two; mergeinfo --show-revs eligible trunk branches/two; "
    "mergeinfo --show-revs merged -R trunk branches/two; "
    "mergeinfo --show-revs eligible --log --depth infinity trunk branches/two; check-mergeinfo; check-mergeinfo /**; "
    "propget svn:mergeinfo -R / trunk; propget svn:mergeinfo -R; where trunk 3; segments trunk; heirs trunk@3; "
    "heirs trunk@1 9; branches; branches /** --ahead-behind --log; contains 2; contains 3 2 --log --in /**; contains --search copy -r 1:3; unmerged; unmerged --log; unmerged /* /*/* --into branches/two; "
    "merges; merges trunk --from /branches/* --log; merges trunk /** --from trunk; "
    "new trunk@3 branches/two; new branches/two trunk -v; new branches/two trunk --all --by-author --markdown --full; new branches/two trunk --issue e; changed-tags --log /**; changed-tags /*/*; graph; graph /*/* --json; "
    "migration; migration --authors-file; migration --rules svn-all-fast-export; graph --since 5 --by-time --unfolded; graph --width 200 /**; info; record 1; byte 1; serve --stop-after 0; update"
)


def all_but(verbs: set[str]) -> list[list[str]]:
    """Return those of the other verbs."""
    return [words for words in ALL if words[0] not in verbs]
