"""Has the cases of tools/clickctl.py that are tables: texts, command lines and replies, each with
what clickctl has to write. They were worked out by hand from docs/CONTROL.md and docs/FAULTS.md.
"""

from __future__ import annotations

from fake_router import GREETING, Answer, cut, single_bytes, value, whole

CONFIG = b"""\
InfiniteSource("a :: b)", -1, 1) -> c :: Counter -> Discard;
FromDevice(a) -> q :: Queue(5) -> ToDevice(b);
Idle -> s :: Switch(0) -> x :: { input -> k :: Counter -> output } -> Discard; s [1] -> Discard;
FromDevice(d) -> rt :: StaticIPLookup(0.0.0.0/0 0, 10.0.0.0/8 10.9.9.9 1) -> Discard; rt [1] -> Discard;
"""
# Its elements in flat order, with their classes, by docs/LANGUAGE.md.
ELEMENTS = b"""\
InfiniteSource@1 InfiniteSource
c Counter
Discard@3 Discard
FromDevice@4 FromDevice
q Queue
ToDevice@6 ToDevice
Idle@7 Idle
s Switch
x/k Counter
Discard@10 Discard
Discard@11 Discard
FromDevice@12 FromDevice
rt StaticIPLookup
Discard@14 Discard
Discard@15 Discard
"""
NAMES = b"".join(it.split()[0] + b"\n" for it in ELEMENTS.splitlines())

# Texts that are refused, with what clickctl writes. FILE is the name of the file.
REFUSED_TEXTS: tuple[tuple[str, str], ...] = (
    ("Idle -> nowhere;", "FILE:1:9: 520 11 UnknownName at 1:9\nIdle -> nowhere;\n        ^\n"),
    # The column counts bytes: 1 for the tab, and 3, 2, 3, 1, 3, 4 and 5 for the next parts.
    ("// a\n\t/* \u00e4\u20ac \u6f22 */ Idle => Discard;\r\n", "FILE:2:23: 520 1 BadByte at 2:23\n\t/* \u00e4\u20ac \u6f22 */ Idle => Discard;\n\t                 ^\n"),
    ("/* a\u0308 */ Idle => Discard;", "FILE:1:16: 520 1 BadByte at 1:16\n/* a\u0308 */ Idle => Discard;\n             ^\n"),
    ("a ->\n", "FILE:2:1: 520 4 Unexpected at 2:1\n\n^\n"),
    ("a ->", "FILE:1:5: 520 4 Unexpected at 1:5\na ->\n    ^\n"),
    ("Idle -> \x1b[1m;", "FILE:1:9: 520 1 BadByte at 1:9\nIdle -> \ufffd[1m;\n        ^\n"),
    ("Idle;" * 4097, "FILE: 520 16 TooMany\n"),
    ("Idle; " * 40 + "nowhere;", "FILE:1:241: 520 11 UnknownName at 1:241\n.." + "Idle; " * 10 + "nowhere;\n" + " " * 62 + "^\n"),
    ("n;" + " Idle;" * 40, "FILE:1:1: 520 11 UnknownName at 1:1\nn;" + " Idle;" * 19 + " Idl..\n^\n"),
    ("Idle;\nFromDevice(a) -> q :: Queue(2);\n", "FILE:2:18: 520 31 Count at q outputs 0\nFromDevice(a) -> q :: Queue(2);\n                 ^\n"),
    ("Idle -> a;\n  p, a :: Counter;\nIdle -> p -> Discard;", "FILE:2:6: 520 31 Count at a outputs 0\n  p, a :: Counter;\n     ^\n"),
    ("p, a :: Counter;\nIdle -> a -> Discard;", "FILE:1:1: 520 31 Count at p inputs 0\np, a :: Counter;\n^\n"),
    ("Idle; Counter -> Discard;", "FILE:1:7: 520 31 Count at Counter@2 inputs 0\nIdle; Counter -> Discard;\n      ^\n"),
    ("FromDevice(a) -> t :: Tee -> Discard; t [2] -> Discard;", "FILE:1:18: 520 32 Unused at t output 1\nFromDevice(a) -> t :: Tee -> Discard; t [2] -> Discard;\n                 ^\n"),
    # Two elements may be meant.
    ("Idle -> Counter -> Discard; Counter -> Discard;", "FILE: 520 31 Count at Counter@4 inputs 0\n"),
    # The element is in a compound.
    ("elementclass T { input -> q :: Strip(x) -> output } Idle -> t :: T -> Discard;", "FILE: 520 22 BadNumber in t/q\n"),
    # The name is also in comments, in strings and in a body.
    (
        "// q :: Queue\n/* q :: Queue */ elementclass A { q :: Queue }\nInfiniteSource(\"( q :: \\\" ( Queue(0)\", 1 /* ( */) -> Discard;\n  FromDevice(a) -> q :: Queue(0) -> ToDevice(b);",
        "FILE:4:20: 520 24 OutOfRange in q\n  FromDevice(a) -> q :: Queue(0) -> ToDevice(b);\n                   ^\n",
    ),
    ("Idle -> a/b@1 :: Strip(x) -> Discard; // a/b@1 ::", "FILE:1:9: 520 22 BadNumber in a/b@1\nIdle -> a/b@1 :: Strip(x) -> Discard; // a/b@1 ::\n        ^\n"),
)

# Wrong command lines, with the end of what clickctl writes.
WRONG_WORDS: tuple[tuple[str, str], ...] = (
    ("", "the following arguments are required: COMMAND"),
    ("reads c.count", ""),
    ("read", "the following arguments are required: HANDLER"),
    ("read --interval 1 c.count", "unrecognized arguments: --interval"),
    ("rea c.count", ""),
    ("write", "the following arguments are required: HANDLER"),
    ("write s.switch 1 2", "unrecognized arguments: 2"),
    ("write s.switch -x", "unrecognized arguments: -x"),
    ("swap", "the following arguments are required: FILE"),
    ("check", "the following arguments are required: HANDLER"),
    ("watch", "the following arguments are required: HANDLER"),
    ("wait q.length 1", "the following arguments are required: SECONDS"),
    ("wait q.length 1 x", "argument SECONDS: 'x' is not a number of seconds from 0 to 86400 in decimal digits"),
    ("wait q.length 1 86401", "argument SECONDS: '86401' is not a number of seconds from 0 to 86400 in decimal digits"),
    ("watch q.length --count 0", "argument --count: '0' is not a number from 1 to 999999999 in decimal digits"),
    ("watch q.length --interval 0", "argument --interval: '0' is not a number of seconds from 0.01 to 86400 in decimal digits"),
    ("-p 0 read q.length", "argument -p/--port: '0' is not a number from 1 to 65535 in decimal digits"),
    ("-p 65536 read q.length", "argument -p/--port: '65536' is not a number from 1 to 65535 in decimal digits"),
    ("-p +1 read q.length", "argument -p/--port: '+1' is not a number from 1 to 65535 in decimal digits"),
    ("read q.length -h", "argument -h/--host: expected one argument"),
    ("--timeout 0 read q.length", "argument --timeout: '0' is not a number of seconds from 0.1 to 86400 in decimal digits"),
    ("--timeout 1e3 read q.length", "argument --timeout: '1e3' is not a number of seconds from 0.1 to 86400 in decimal digits"),
    ("--time 1 read q.length", ""),
)

READ = b"READ k.count"
OK = b"200 Read handler 'k.count' OK\r\n"
LOST = b"clickctl: 127.0.0.1:PORT: "
INCOMPLETE = LOST + b"no complete reply to READ k.count: the connection ended"

# Greetings that no router of Click sends, with what clickctl writes.
WRONG_GREETINGS: tuple[tuple[Answer, bytes], ...] = (
    (cut(b""), LOST + b"no complete greeting: the connection ended"),
    (cut(b"Click::ControlSocket/1.3"), LOST + b"no complete greeting: the connection ended"),
    (whole(b"HTTP/1.1 400 Bad Request\r\n"), LOST + b"the greeting is 'HTTP/1.1 400 Bad Request', not Click::ControlSocket/1.3"),
    (whole(b"Click::ControlSocket/2.0\r\n"), LOST + b"the greeting is 'Click::ControlSocket/2.0', not Click::ControlSocket/1.3"),
    (whole(b"\r\n"), LOST + b"the greeting is '', not Click::ControlSocket/1.3"),
    (whole(b" Click::ControlSocket/1.3\r\n"), LOST + b"the greeting is ' Click::ControlSocket/1.3', not Click::ControlSocket/1.3"),
    (whole(), LOST + b"no complete greeting within 0.5 s"),
    (single_bytes(GREETING, 0.1), LOST + b"no complete greeting within 0.5 s"),
    (whole(b"x" * 140_000), LOST + b"a line of the reply has more than 131072 bytes"),
)

# Replies to READ k.count that are wrong or cut off, with what clickctl writes.
WRONG_REPLIES: tuple[tuple[Answer, bytes], ...] = (
    (cut(b""), INCOMPLETE),
    (cut(OK[:-1]), INCOMPLETE),
    (cut(OK), INCOMPLETE),
    (cut(OK + b"DATA 10\r\n"), INCOMPLETE),
    (cut(OK + b"DATA 10\r\n123456789"), INCOMPLETE),
    (cut(b"520-Read handler 'k.count' error:\r\n"), INCOMPLETE),
    (cut(b"511 No handler"), INCOMPLETE),
    (whole(OK + b"DATA x\r\n"), LOST + b"the length of a value is 'DATA x'"),
    (whole(OK + b"DATA -1\r\n"), LOST + b"the length of a value is 'DATA -1'"),
    (whole(OK + OK), LOST + b"the length of a value is \"200 Read handler 'k.count' OK\""),
    (whole(b"\r\n"), LOST + b"a line of the reply is ''"),
    (whole(b"20 OK\r\n"), LOST + b"a line of the reply is '20 OK'"),
    (whole(b"200\r\n"), LOST + b"a line of the reply is '200'"),
    (whole(b"520-a\r\n530 b\r\n"), LOST + b"a line of the reply is '530 b'"),
    (whole(OK + b"DATA 5\r\n1234"), LOST + b"no complete reply to READ k.count within 0.5 s"),
    (single_bytes(value(b"k.count", b"1"), 0.05), LOST + b"no complete reply to READ k.count within 0.5 s"),
)

# Unusual replies that are correct, with the value.
UNUSUAL_REPLIES: tuple[tuple[Answer, bytes], ...] = (
    (single_bytes(value(b"k.count", b"a\r\nb\0\xff")), b"a\r\nb\0\xff"),
    (whole(OK[:9], OK[9:] + b"DATA 1", b"2\r", b"\nabc", b"def", b"ghijkl", pause=0.1), b"abcdefghijkl"),
    (whole(b"200 ok\nDATA 2\n\r\n"), b"\r\n"),
    (whole(b"200-one\r\n200-two\r\n200 three\r\nDATA 1\r\n5"), b"5"),
    (whole(b"220 \r\nDATA 0\r\n"), b""),
    (whole(value(b"k.count", b"520 x\r\n")), b"520 x\r\n"),
    (whole(value(b"k.count", bytes(range(256)) * 40)), bytes(range(256)) * 40),
)

# Refusals, with what clickctl writes.
REFUSALS: tuple[tuple[bytes, bytes], ...] = (
    (b"520-one\r\n520-two\r\n520 three\r\n", b"clickctl: 520 one two three"),
    (b"511 \xff\xc3\xa4\n", b"clickctl: 511 \xff\xc3\xa4"),
    (b"300 other\r\n", b"clickctl: 300 other"),
)
