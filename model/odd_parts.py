"""Parts of which drawn bundles are made: names, texts and values, and above all odd ones."""

# fmt: off
# Of these, each history has the names of two families. The order of their bytes is often not that of their paths.
FAMILIES = [
    [b"a", b"a-b", b"a.c", b"ab", b"a b"],
    [b"trunk", b"branches", b"tags", b"trunk-1"],
    [b"x", b"x@1", b"@", b"x@"],
    [b"c", b"c:d", b":", b"c:1-2"],
    [b"\xc3\xa9", b"e\xcc\x81", b"\xff", b"\x80z"],
    [b" ", b"  ", b" a", b"a "],
    [b"...", b".a", b"a..", b"-", b"*"],
    [b"\x00", b"\x01", b"r\rn", b"t\tb", b"\\"],
]
# The order of paths with these names depends much on what is compared.
CLOSE_NAMES = [b"b", b"b-", b"b.c", b"B", b"C"]
OTHER_NAMES = [b"svn:executable", b"svn:mergeinfo2", b"svn:mergeinf", b"SVN:MERGEINFO", b"", b"a\nb", b"PROPS-END\n"]
OTHER_VALUES = [b"", b"*", b"/a:1", b"PROPS-END\n", b"K 1\na\nV 1\nb\n", b"\n\nNode-path: a\n\n", b"\x00\xff"]
MALFORMED = [b"/a", b"/a:0", b"/a:2147483648", b"/a:5-3", b"/a:3-3", b"/a/../b:1", b"./a:1", b"/a:3-5,4*", b"/a:1,",
             b"/a:1,,2", b"/a:1 ,2", b"/a:1 ", b"/a:x", b"/a:1-2-3", b"/a:*", b"/a:1\r\n", b"\n\n", b"/a:1\n\n",
             b"\n/a:1", b" "]
BODIES = [b"x", b"\n", b"text\n", b"\n\nNode-path: a\nNode-action: delete\n\n", b"Revision-number: 1\n\n", b"\xff\x00"]
PROP_DELTA = b"Prop-delta: true"
TEXT_DELTA = b"Text-delta: true"
# With these, as with all but the four bytes `true`, a property section is a whole list.
NO_PROP_DELTA = [b"Prop-delta: false", b"Prop-delta: True", b"Prop-delta: true ", b"Prop-delta:  true",
                 b"Prop-delta: true\r", b"Prop-delta: tru", b"Prop-delta: 1", b"Prop-delta:"]
NO_TEXT_DELTA = [b"Text-delta: TRUE", b"Text-delta:  true", b"Text-delta: false"]
# Parts of a property section, of which few fit anywhere and some only into one with changes.
ENTRIES = [b"D 13\nsvn:mergeinfo\n", b"D 1\na\n", b"D 12\nsvn:mergeinfo\n", b"D 14\nsvn:mergeinfo\n",
           b"D 13\nsvn:mergeinfo\nV 4\n/a:1\n", b"K 13\nsvn:mergeinfo\nD 4\n/a:1\n", b"K 13\nsvn:mergeinfo\n",
           b"D 1\na\nV 1\na\n", b"D 0\n\nV 0\n\n", b"K 1\na\nD 1\na\n", b"K 0\n\nD 0\n\n",
           b"d 13\nsvn:mergeinfo\n", b"D13\nsvn:mergeinfo\n", b"D  13\nsvn:mergeinfo\n",
           b"D 13 \nsvn:mergeinfo\n", b"D 13\nsvn:mergeinfo", b"D 13\nsvn:mergeinfo\n\n",
           b"D 013\nsvn:mergeinfo\n", b"D 0\n\n", b"D \n\n", b"D\n\n", b"D 9223372036854775807\n\n",
           b"D 9223372036854775808\n\n", b"V 1\na\n", b"PROPS-END\n", b"\n"]
UNREAD_HEADERS = [b"Text-content-md5: d41d8cd98f00b204e9800998ecf8427e", b"X:", b"X:  y", b"Node-kind-2: dir",
                  b"node-path: z", b"Node-copyfrom-: 1"]
HEADERS = {
    b"UUID": [b"", b"0"],
    b"Revision-number": [b"", b"0", b"1", b"02", b"3", b"-1", b"1 ", b"x"],
    b"Node-path": [b"", b"/", b"a", b"a/./b", b"..", b"a/..", b"a/" * 1024, b"/a" * 1025],
    b"Node-kind": [b"", b"file", b"dir", b"Dir", b"symlink"],
    b"Node-action": [b"", b"add", b"delete", b"change", b"replace", b"Add", b"add ", b"move"],
    b"Node-copyfrom-rev": [b"", b"0", b"01", b"5", b"12", b"2147483647", b"2147483648", b"x", b" 1"],
    b"Node-copyfrom-path": [b"", b"/", b"a", b"./a", b"a/..", b"a/" * 1024, b"/a" * 1025],
    b"Prop-content-length": [b"", b"0", b"1", b"10", b"-1", b"1x", b"9223372036854775807", b"9223372036854775808"],
    b"Text-content-length": [b"", b"0", b"1", b"10", b"+1", b" 1", b"9223372036854775807", b"9223372036854775808"],
    b"Content-length": [b"", b"0", b"1", b"20", b"-1", b"0x1", b"9223372036854775807", b"9223372036854775808"],
    b"Prop-delta": [b"true", b"false", b"True", b""],
    b"Text-delta": [b"true", b"false", b"true ", b""],
}
LINES = [b"x", b":", b": x", b" ", b"\r", b"#", b"Node-path", b"UUID: 1\nUUID: 1"]
HEADS = [b"", b"0 0 %d", b"0 65 %d", b"2147483648 1 %d", b"0 1  %d", b"0 1 %d ", b"0 1 -%d", b"x 1 %d", b"0 1 %d\r",
         b"0 1 1%d", b"00 01 0%d", b"2147483647 64 %d"]
QUERIES = [b"", b"\t", b"locate", b"log\t", b"log\ta", b"log\ta@", b"log\ta@1\t", b"log \ta@1", b"Log\ta@1",
           b"locate\ta@1", b"locate\ta@1\t1\t1", b"locate\ta@1\t", b"locate\ta@1\tHEAD", b"locate\ta@1\t2147483648",
           b"log\ta@2147483648", b"log\ta@-1", b"log\ta@HEAD", b"log\ta@ 1", b"log\ta/../b@1", b"log\t.@1",
           b"log\t@1\r", b"mergeinfo\t@1\t1", b"mergeinfo", b"mergeinfos\t@1", b"segments\t@1\t1",
           b"segments\t/./@1", b"locate\t@1\t1\r", b"log\t\t@1", b"\x00", b"log\t" + b"a/" * 1500 + b"@1",
           b"mergeinfo\t" + b"/" * 1500 + b"@001", b"log\t@2147483647", b"locate\t@0\t2147483647",
           b"log\t@1" + b"0" * 5000, b"log\t@" + b"0" * 5000 + b"1", b"merged", b"eligible\t", b"merged\t@1",
           b"eligible\t@1\t", b"merged\t@1\t@1\t", b"eligible\t@1\t@1\t@1", b"merged\t@1 @1", b"Merged\t@1\t@1",
           b"eligible\t\t@1\t@1", b"eligibl\t@1\t@1", b"merged\t@1\t@1\r", b"eligible\t@2147483647\t@1",
           b"merged\t@1\t@2147483647", b"eligible\t" + b"a/" * 1500 + b"@1\t@0", b"merged\t@01\t@001",
           b"merged\t@1\t" + b"/a" * 1500 + b"@1"]
# Lines that are no questions, most of them nearly, and a few questions about odd pegs.
QUESTIONS = [b"ask", b"ask\t", b"ask\t\t", b"ask\tlives", b"ask\tlist\t", b"ask\tentry\ta", b"ask\tlives\ta@",
             b"ask\tlives\ta@1\t", b"ask\tlives\ta@1\t1", b"ask\tlist\t@1\t@1", b"ask\tlives\t@1\t0:1",
             b"ask\t\tlives\t@1", b"ask\tlives\t\t@1", b"\task\tlist\t@1", b"ask\tlist\ta/../b@1", b"ask\tlives\t.@1",
             b"ask\tentry\t/./@0", b"ask\tentry\ta/.@2147483647", b"ask\tblame\ta@1", b"ask\tlog\t@1",
             b"ask\tsegments\t@1", b"ask\tlocate\t@1\t1", b"ask\task\t@1", b"ask\tLives\t@1", b"ask\tlive\t@1",
             b"ask\tlivess\t@1", b"ask\tentry \t@1", b"ask\t entry\t@1", b"ask\tlist\t@1\r", b"ask\tlist\t@ 1",
             b"ask\tlist\t@-1", b"ask\tlist\t@+1", b"ask\tlist\t@HEAD", b"ask\tlives\t@2147483648", b"ask lives\t@1",
             b"ask\tlives @1", b"ask \tlives\t@1", b" ask\tlives\t@1", b"ask\r\tlives\t@1", b"asking\tlives\t@1",
             b"as\tlives\t@1", b"Ask\tlives\t@1", b"ASK\tlives\t@1", b"ask\x00\tlives\t@1", b"entry\t@1", b"list\t@1",
             b"lives\t@1", b"ask\tlives\t@4294967297", b"ask\tlist\t@" + b"0" * 5000 + b"x",
             b"ask\tlives\t@" + b"0" * 5000 + b"1", b"ask\tlist\t@0001", b"ask\tentry\t//@1",
             b"ask\tlives\t@2147483647", b"ask\tlist\t@0", b"ask\tlives\t" + b"a/" * 1500 + b"@1",
             b"ask\tentry\t" + b"/" * 1500 + b"@01", b"ask\tholds\t@1", b"ask\tholds\t@1\t1", b"ask\tholds\t@1\t1:0",
             b"ask\tholds\t@1\t0:1\t", b"ask\tholds\t@1\t0:2147483648", b"ask\tholds\t@0\t0000:2147483647",
             b"ask\tholds\t0:1\t@1", b"ask\tancestor\t@1", b"ask\tancestor\t@1\t@1\t@1", b"ask\tancestor\t@1\t0:1",
             b"ask\tancestor\t@0\t@0", b"ask\texplicit\t@1\t@1", b"ask\texplicit\t", b"ask\texplicit\t@0",
             b"ask\tnew\t@1", b"ask\tnew\t@1\t@1\t", b"ask\tnew\t@1\t@1\t0:1\t", b"ask\tnew\t@1\t@1\t0:1\t1\t",
             b"ask\tnew\t@1\t@1\t0:1\t0", b"ask\tnew\t@1\t@1\t1", b"ask\tnew\t@1\t0:1", b"ask\tnew\t@1\t@1\t\t",
             b"ask\tnew\t@0\t@0\t0:2147483647\t1-2147483647", b"ask\tnew-ranges\t@1", b"ask\tnew-range\t@1\t@1",
             b"ask\tnew-ranges\t@1\t@1\t1:0", b"ask\tnew-ranges\t@1\t@1\t0:1\t2-1", b"ask\tdistance\t@1",
             b"ask\tdistance\t@1\t", b"ask\tdistance\t@1\t@1", b"ask\tdistance\t@1\t\t", b"ask\tdistance\t@1\t0\t@1",
             b"ask\tdistance\t@0\t\t\t@0\t", b"ask\tdistance\t@0\t1,\t@0", b"ask\tdescendants\t@1",
             b"ask\tdescendants\t@1\t@1", b"ask\tdescendants\t@0\t2147483648", b"ask\tdescendants\t@0\t0\t0",
             b"ask\tdescendants\t@0\t0000"]
# Fields that are no rangelists, most of them nearly.
RANGELISTS = [b"0", b"1,", b",1", b"2-1", b"1-1", b"1--2", b"1**", b"*", b"-", b"1 ", b" 1", b"2147483648", b"1;2",
              b"@1", b"/a:1", b"1-2147483648", b"0001-02", b"1,1", b"1,1*", b"1\r"]
FIELDS = [b"", b"1", b"a", b"a@", b"@", b"@x", b"a@-1", b"a@ 1", b"@1 ", b"@1\r", b"@HEAD", b"a@2147483648",
          b"./a@1", b"a/../b@0", b"..@1", b"a/.@2147483647"]
FORMATS = [b"", b"0", b"1", b"4", b"02", b"03", b"2 ", b"3 ", b"3\r", b" 3", b"23", b"33", b"2\n3"]
# The bytes that a change writes.
BYTES = (b"\n", b"0", b"1", b"2", b"7", b" ", b":", b"/", b"@", b"-", b",", b"*", b".", b"\t", b"a", b"\r", b"\xff")
