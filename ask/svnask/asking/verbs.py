"""The verbs by their names. Each stands in `svnask.cli.verbs`, by its name, and is imported when it is asked."""
from __future__ import annotations

import importlib

from svnask.asking.verb import Verb

# The name of each verb, and its help.
HELP = {
    "log": "the log of a path, as 'svn log' prints it",
    "show": "a revision, as 'svn log -v -c REV' prints it",
    "mergeinfo": "the mergeinfo of a path, or what 'svn mergeinfo' prints of a source and a target",
    "check-mergeinfo": "what is wrong with values of svn:mergeinfo, with status 1 if anything is",
    "propget": "the svn:mergeinfo of paths, as 'svn propget' prints it",
    "where": "where a path was in another revision",
    "segments": "where a path was in all revisions, the newest first",
    "heirs": "each path of a later revision that comes from a path, itself or by copies, and the way there",
    "branches": "each life of a branch or a tag: its revisions, where it came from, and its last change",
    "contains": "the branches and tags of HEAD, or of a peg, that have a revision, in their history or merged",
    "unmerged": "what is still to be merged from each branch, as 'svn mergeinfo --show-revs eligible' says",
    "merges": "what was merged into what: revision, author, date, source, target, merged revisions, and how",
    "new": "the revisions that one branch or tag has, in its history or merged, and another one lacks",
    "changed-tags": "what happened to tags since they were made: changed, deleted, renamed, made again",
    "graph": "a picture of branches and tags, their copies and merges, as SVG for a browser",
    "export": "write the history to an SQLite database, or add what is new to it",
    "migration": "what a migration to git has to know: authors, projects, names, changed tags, merges",
    "check-git": "what differs in a repository of git that was made of the history, with status 1 if anything does",
    "record": "the record of a number, as in '16 NoParent at record 162'",
    "byte": "what stands at an offset of the dump, as in '4 Length at byte 5930'",
    "info": "the dump: its format, revisions, dates and records",
    "ask": "the answers to a list of queries, each line with its query",
    "update": "read what is new in the source",
    "forget": "remove what is kept of the source",
    "sources": "list the sources of which something is kept",
    "serve": "keep the history open, and answer the questions of other calls",
    "stop": "end a 'serve' that runs",
    "web": "show the history in a browser, and answer questions over HTTP",
    "shell": "answer question after question, one per line",
}
# What may follow the command, for each verb.
EXAMPLE_OF = {
    "log": "/srv/repo log -v -l 5 trunk",
    "show": "/srv/repo show r9",
    "mergeinfo": "/srv/repo mergeinfo --show-revs eligible trunk branches/two",
    "check-mergeinfo": "/srv/repo check-mergeinfo 'branches/*'",
    "propget": "/srv/repo propget svn:mergeinfo -R branches/two",
    "where": "/srv/repo where trunk/main.c@9 3",
    "segments": "/srv/repo segments branches/two",
    "heirs": "/srv/repo heirs trunk/main.c@3",
    "branches": "/srv/repo branches --ahead-behind --log",
    "contains": "/srv/repo contains --search 'PROJ-12 *' 'tags/*'",
    "unmerged": "/srv/repo unmerged 'branches/*' --into trunk",
    "merges": "/srv/repo merges 'branches/*' --from trunk",
    "new": "/srv/repo new tags/1.0 tags/1.1 --markdown",
    "changed-tags": "/srv/repo changed-tags 'tags/1.*' --log",
    "graph": "/srv/repo graph --since 5 -o branches.svg",
    "export": "/srv/repo export history.db",
    "migration": "/srv/repo migration --rules svn-all-fast-export",
    "check-git": "/srv/repo check-git converted.git",
    "record": "repo.dump record 162",
    "byte": "repo.dump byte 5930",
    "info": "repo.dump info",
    "ask": "repo.dump ask queries.txt",
    "update": "/srv/repo update",
    "forget": "/srv/repo forget",
    "sources": "sources",
    "serve": "/srv/repo serve --stop-after 60",
    "stop": "/srv/repo stop",
    "web": "/srv/repo web --listen 127.0.0.1:8080",
    "shell": "/srv/repo shell <questions.txt",
}


def verb_named(name: str) -> Verb:
    """Import a verb."""
    verb: Verb = importlib.import_module("svnask.cli.verbs." + name.replace("-", "_")).VERB
    return verb
