"""`log --xml`: what is escaped, which properties are shown, and what is said of changed paths."""
from __future__ import annotations

import xml.etree.ElementTree

from dev.dumps import DIR, FILE, Dump, Node, Revision, added, changed, copied, deleted, section
from svnask.log import xml as xml_log
from tests.ask import base

PROPERTIES = {
    b"svn:log": b"a <&> b\r\n\x01\x00c",
    b"svn:author": b"",
    b"z": b"1\t",
    b"bug": b"a\x00b",
    b"a": b"<x\xff>",
}
MARK = section({b"mark": b"1"})
# Revision 2 has records of each sort; those of revision 3 take properties away.
DUMP = bytes(
    Dump(
        [
            Revision(0, (), {b"svn:log": b"begin"}),
            Revision(1, [added(b"d"), added(b"d/f", FILE, MARK, b"f\n"), added(b"d/e"), added(b"g", FILE)], PROPERTIES),
            Revision(
                2,
                [
                    copied(b"c", b"d", 1),
                    deleted(b"c/f"),
                    Node(b"c/e", b"change", DIR, properties=MARK),
                    Node(b"g", b"change", FILE, text=b""),
                    deleted(b"d/e"),
                    added(b"d/e", FILE, section({}), b""),
                ],
            ),
            Revision(3, [Node(b"c/e", b"change", DIR, properties=section({})), deleted(b"d"), added(b"d", DIR, MARK)]),
            Revision(4, [Node(b"h", b"add", FILE, None, None, b"h\n"), changed(b"h", MARK)]),
        ]
    )
)


class XmlLog(base.Case):
    def output(self, *words: str) -> bytes:
        return self.asked(self.made("dump", DUMP), "log", "--xml", *words)

    def test_texts_and_attributes_are_escaped(self) -> None:
        rows = (
            (b"a<b>&\"'\r\n\t", b"a&lt;b&gt;&amp;\"'&#13;\n\t", b"a&lt;b&gt;&amp;&quot;&apos;&#13;&#10;&#9;"),
            (b"&amp;", b"&amp;amp;", b"&amp;amp;"),
            (b"\xff\x01", b"\xff\x01", b"\xff\x01"),
        )
        for text, as_text, as_attribute in rows:
            self.assertEqual((xml_log.escaped_xml(text), xml_log.attribute(text)), (as_text, as_attribute))
        self.assertEqual(xml_log.numbered(b"\x01\t\n\r\x1f\x7f\x80"), b"?\\001\t\n\r?\\031?\\127\x80")

    def test_properties_are_shown_that_are_asked_for(self) -> None:
        author, message = b"<author></author>\n", b"<msg>a &lt;&amp;&gt; b&#13;\n?\\001</msg>\n"
        others = (
            b'<revprops>\n<property\n   name="a"\n   encoding="base64">PHj/Pg==\n</property>\n'
            b'<property\n   name="bug"\n   encoding="base64">YQBi\n</property>\n'
            b'<property\n   name="z">1\t</property>\n</revprops>\n'
        )
        # fmt: off
        rows: tuple[tuple[list[str], bytes], ...] = (
            ([], author + message), (["-q"], author), (["--with-all-revprops"], author + message + others),
            (["--with-all-revprops", "-q"], author + message + others), (["--with-no-revprops"], b""),
            (["--with-revprop", "svn:log", "--with-revprop", "none"], message),
            (["--with-revprop", "z"], b'<revprops>\n<property\n   name="z">1\t</property>\n</revprops>\n'),
        )
        # fmt: on
        for words, wanted in rows:
            head = xml_log.XmlForm().begin + b'<logentry\n   revision="1">\n'
            self.assertEqual(self.output("-r", "1", *words), head + wanted + b"</logentry>\n</log>\n", words)

    def test_revision_0_is_shown_where_its_message_is_asked_for(self) -> None:
        rows: tuple[tuple[list[str], bool], ...] = (
            ([], True),
            (["-q"], False),
            (["--with-no-revprops"], False),
            (["--with-all-revprops", "-q"], True),
        )
        for words, is_shown in rows:
            self.assertEqual(b'revision="0"' in self.output("-r", "0", *words), is_shown, words)

    def test_changed_paths_have_kinds_and_what_was_changed(self) -> None:
        wanted = {
            1: ["A d dir", "A d/e dir", "A d/f file TP", "A g file"],
            2: ["A c dir", "M c/e dir P", "D c/f file", "R d/e file T", "M g file T"],
            3: ["M c/e dir P", "R d dir P"],
            4: ["A h file TP"],
        }
        found: dict[int, list[str]] = {}
        for entry in xml.etree.ElementTree.fromstring(self.output("-v", "--with-no-revprops")).iter("logentry"):
            for path in entry.iter("path"):
                mods = "T" * (path.attrib["text-mods"] == "true") + "P" * (path.attrib["prop-mods"] == "true")
                words = (path.attrib["action"], (path.text or "")[1:], path.attrib["kind"], mods)
                found.setdefault(int(entry.attrib["revision"]), []).append(" ".join(words).strip())
        self.assertEqual(found, wanted)

    def test_what_svn_refuses_and_objects(self) -> None:
        for words in (["--with-all-revprops"], ["--with-no-revprops"], ["--with-revprop", "bug"]):
            done = base.called(base.dump_of("branches"), "log", *words)
            self.assertEqual((done.status, done.output, done.said[:15]), (1, b"", "svnask: E205000"), words)
        done = base.called(base.dump_of("branches"), "log", "--xml", "--json")
        self.assertEqual((done.status, done.output), (2, b""))
