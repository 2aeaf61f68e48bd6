"""The tables of an exported history, and the views that answer questions about branches and tags."""
from __future__ import annotations

# STRICT is there where SQLite knows it. Tables whose key is not a number have no other one. A revision is a number
# everywhere. Many paths have the same mergeinfo by copies, so a text stands once.
TABLES = """
CREATE TABLE source (
    name TEXT NOT NULL, uuid TEXT, youngest INTEGER NOT NULL, version TEXT NOT NULL
) {strict};
CREATE TABLE revision (
    number INTEGER PRIMARY KEY, author TEXT, date TEXT, message TEXT
) {strict};
CREATE TABLE change (
    revision INTEGER NOT NULL REFERENCES revision, path TEXT NOT NULL, action TEXT NOT NULL, kind TEXT,
    text INTEGER NOT NULL, properties INTEGER NOT NULL, from_path TEXT, from_revision INTEGER,
    PRIMARY KEY (revision, path)
) {strict};
CREATE TABLE mergeinfo_text (
    key BLOB PRIMARY KEY, value TEXT NOT NULL
) {rowless};
CREATE TABLE mergeinfo_of_path (
    path TEXT NOT NULL, revision INTEGER NOT NULL REFERENCES revision, text BLOB REFERENCES mergeinfo_text,
    PRIMARY KEY (path, revision)
) {rowless};
CREATE VIEW mergeinfo AS
SELECT path, revision, value FROM mergeinfo_of_path LEFT JOIN mergeinfo_text ON mergeinfo_text.key = mergeinfo_of_path.text;
"""
# Sooner made when the rows are there.
INDEX = "CREATE INDEX IF NOT EXISTS change_of_path ON change (path, revision)"
# What is written anew whenever there are new revisions. A branch that was renamed goes on in its lane.
DERIVED = """
CREATE TABLE branch (
    id INTEGER PRIMARY KEY, lane INTEGER NOT NULL, path TEXT NOT NULL, kind TEXT NOT NULL,
    first INTEGER NOT NULL REFERENCES revision, last INTEGER NOT NULL REFERENCES revision, is_alive INTEGER NOT NULL,
    from_path TEXT, from_revision INTEGER, origin INTEGER REFERENCES branch, moved_to INTEGER REFERENCES branch
) {strict};
CREATE INDEX branch_of_path ON branch (path);
CREATE TABLE ancestor (
    branch INTEGER NOT NULL REFERENCES branch, lane INTEGER NOT NULL, first INTEGER NOT NULL, last INTEGER NOT NULL,
    has_merges INTEGER NOT NULL, PRIMARY KEY (branch, lane, first)
) {rowless};
CREATE INDEX ancestor_of_lane ON ancestor (lane, last);
CREATE TABLE branch_revision (
    branch INTEGER NOT NULL REFERENCES branch, revision INTEGER NOT NULL REFERENCES revision, lane INTEGER NOT NULL,
    PRIMARY KEY (branch, revision)
) {rowless};
CREATE INDEX branch_revision_of_revision ON branch_revision (revision, lane);
CREATE TABLE merge (
    id INTEGER PRIMARY KEY, revision INTEGER NOT NULL REFERENCES revision,
    branch INTEGER NOT NULL REFERENCES branch, origin INTEGER NOT NULL REFERENCES branch,
    lane INTEGER NOT NULL, origin_lane INTEGER NOT NULL,
    lost INTEGER REFERENCES revision, is_carried INTEGER NOT NULL, is_recorded INTEGER NOT NULL,
    of_path TEXT, into_path TEXT
) {strict};
CREATE INDEX merge_of_origin ON merge (origin_lane, revision);
CREATE TABLE merge_range (
    merge INTEGER NOT NULL REFERENCES merge, first INTEGER NOT NULL, last INTEGER NOT NULL, PRIMARY KEY (merge, first)
) {rowless};
CREATE TABLE other_revision (
    branch INTEGER NOT NULL REFERENCES branch, revision INTEGER NOT NULL REFERENCES revision, how TEXT NOT NULL,
    below TEXT, PRIMARY KEY (branch, revision)
) {rowless};
CREATE INDEX other_revision_of_revision ON other_revision (revision);
CREATE TABLE changed_tag (
    branch INTEGER NOT NULL REFERENCES branch, path TEXT NOT NULL, revision INTEGER NOT NULL REFERENCES revision,
    what TEXT NOT NULL, to_path TEXT
) {strict};
CREATE TABLE finding (
    path TEXT NOT NULL, source TEXT, ranges TEXT, reason TEXT NOT NULL
) {strict};

CREATE VIEW in_history AS
SELECT ancestor.branch, branch_revision.revision
FROM branch_revision JOIN ancestor
ON ancestor.lane = branch_revision.lane AND branch_revision.revision BETWEEN ancestor.first AND ancestor.last
UNION ALL SELECT branch, revision FROM other_revision WHERE how = 'history';

CREATE VIEW in_merge AS
SELECT ancestor.branch, branch_revision.revision, merge.revision AS merged_in, merge.is_recorded, NULL AS below
FROM branch_revision JOIN merge ON merge.origin_lane = branch_revision.lane AND merge.into_path IS NULL
JOIN merge_range ON merge_range.merge = merge.id
    AND branch_revision.revision BETWEEN merge_range.first AND merge_range.last
JOIN ancestor ON ancestor.lane = merge.lane AND ancestor.has_merges AND merge.revision BETWEEN ancestor.first AND ancestor.last
    AND (merge.lost IS NULL OR merge.lost > ancestor.last)
UNION ALL SELECT branch, revision, NULL, how = 'recorded', below FROM other_revision WHERE how <> 'history';

CREATE VIEW unmerged AS
SELECT branch.id AS branch, branch_revision.revision
FROM branch JOIN branch_revision ON branch_revision.branch = branch.id AND branch_revision.revision > branch.first
WHERE branch.is_alive AND branch.kind = 'branch' AND NOT EXISTS (
    SELECT 1 FROM in_merge JOIN branch AS trunk ON trunk.id = in_merge.branch
    WHERE in_merge.revision = branch_revision.revision AND below IS NULL AND trunk.kind = 'trunk' AND trunk.is_alive
) AND NOT EXISTS (
    SELECT 1 FROM in_history JOIN branch AS trunk ON trunk.id = in_history.branch
    WHERE in_history.revision = branch_revision.revision AND trunk.kind = 'trunk' AND trunk.is_alive
);

CREATE VIEW author_of_file AS
SELECT change.path, revision.author, count(*) AS changes, max(revision.number) AS last
FROM change JOIN revision ON revision.number = change.revision
WHERE change.kind = 'file' GROUP BY change.path, revision.author;
"""
