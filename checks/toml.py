"""Which bytes are a document of TOML for tools/toml_document.py, and which for the program: see toml.sh.
Called with the top and the program."""
import os
import random
import subprocess
import sys

sys.dont_write_bytecode = True
TOP, PROGRAM = os.path.abspath(sys.argv[1]), os.path.abspath(sys.argv[2])
sys.path.insert(1, os.path.join(TOP, "tools"))
from toml_document import NotToml, document_of  # noqa: E402

CHANGED = 1500  # files
# lines that stand in front of a rule file
LINES = r"""
x=9223372036854775807
x=9223372036854775808
x=-9223372036854775808
x=-9223372036854775809
x=0x7fffffffffffffff
x=0x8000000000000000
x=0o777777777777777777777
x=0o1000000000000000000000
x=1e308
x=1e309
x=-1e309
x=1.7976931348623157e308
x=1.7976931348623159e308
x=1e-400
x=inf
x=-inf
x=+nan
x=07:32
x=1979-05-27T07:32
x=1979-05-27 07:32Z
x=1979-05-27T07:32-07:00
x=24:00
x=23:60
x=23:59:60
x=23:59:61
x=1979-05-27T07:32:60Z
x=1979-13-01
x=1979-02-29
x=1980-02-29
x=07:32:00.123456789123
x=-07:32
x="\e"
x="\x41\\x41"
x="\x4"
x="\q"
x='\e'
x={,}
x={a=1,}
x={a=1,,}
x={a=1 b=2}
x={a={b={c=1,},},}
x={a='}',b="}"}
x={a=1}}
x={a=1
x={"a\x42"=1}
"a\e"=1
x=[1,2,]
x=[,]
x=1 y=2
x=1_000
x=1__0
x=_1
x=01
x=+0
x=.5
x=5.
x=1.e1
x=0xDEAD_beef
x=0X1
x=True
"x"=1
""=1
x.y=1
=1
x=
x
[x]y=1
é=1
"é"=1
x="\uD800"
x="\U00110000"
x=''''a'''''
x=''''a''''''
""".strip().split("\n")
# the same with newlines and bytes that no line above can have
TEXTS = [
    b"x={\na=1\n}", b"x={a\n=1}", b"x={a=\n1}", b"x={a=1\n,b=2}", b"x={a=1 # c\n}", b"x={# c\n}", b"x={a=1 # c\n, # d\n b=2, # e\n}",
    b"x={a=1\r\n}", b"x={a=1\r}", b"x={a=[1,2,\n# c\n3,],\n}", b"x={a=1\x01}", b"x={ # \x01\n}", b'x="""\\e\n\\x41 \\\n  y"""',
    b"x='''\n'''", b'x="a\nb"', b"x='a\nb'", b"\r\nx=1\r\n", b"x=1\r", b"x\t=\t1\t#c", b'x="\x7f"', b'x="\x01"', b"# \x01", b"# \x7f",
    b'x="\xff"', b"\xef\xbb\xbfx=1", b"x=\xef\xbb\xbf1", b"x.y=1\nx.z=2", b"x={y=1}\nx.z=2", b"x=1\nx=2", b"[x\n]",
    b'x=""""a"""', b'x="""a"""""', b'x="""a""""""', b'x="""""""', b'x="""\\""""',
]  # fmt: skip


def nested(n):
    """Texts with so many brackets, braces or parts of a key; and whether they stand in front of a rule file or
    behind it."""
    key = b".".join([b"a"] * n)
    yield from ((text, True) for text in (
        b"x=" + b"[" * n + b"]" * n, b"x=" + b"{a=" * n + b"1" + b"}" * n, key + b"=1", b"x={" + key + b"=1}",
        b"a.b.c=" + b"[" * n + b"]" * n, b"x=[[{" + key + b"=1}]]", b"x=" + b"{a.b=" * n + b"1" + b"}" * n,
        b'x={"a"."b".' + key + b"=[1.5,2.5]}",
    ))  # fmt: skip
    yield from ((text, False) for text in (b"[" + key + b"]", b"[[" + key + b"]]", b"[a.b.c]\n" + key + b"=1"))


def changed(texts, draw):
    """A rule file with one to three places changed."""
    text = bytearray(draw.choice(texts))
    for _ in range(draw.randint(1, 3)):
        at = draw.randrange(len(text))
        piece = draw.choice([b"[", b"]", b"{", b"}", b",", b"=", b'"', b"'", b"#", b"\n", b".", b"0", b"_", b"-", b"x", b"\\e", b"a=1,", b""])
        text[at : at + draw.randrange(3)] = piece
    return bytes(text)


def are_alike(text):
    """Whether both take a text, or both refuse it as no document."""
    ran = subprocess.run([PROGRAM, "check", "rule=-"], input=text, capture_output=True)
    try:
        document_of(text)
        taken = True
    except NotToml:
        taken = False
    return taken == (ran.stderr != b"3 RuleRefused NotToml\n")


def main():
    texts = []
    for name in sorted(os.listdir(os.path.join(TOP, "rules"))):
        if name.endswith(".toml"):
            with open(os.path.join(TOP, "rules", name), "rb") as file:
                texts.append(file.read())
    base, draw = min(texts, key=len), random.Random(1)
    made = [line.encode() + b"\n" + base for line in LINES] + [text + b"\n" + base for text in TEXTS]
    for n in (79, 80, 81):
        made += [text + b"\n" + base if front else base + b"\n" + text for text, front in nested(n)]
    short = [text for text in texts if len(text) < 3000]
    made += [changed(short, draw) for _ in range(CHANGED)]
    wrong = [text for text in made if not are_alike(text)]
    for text in wrong[:20]:
        print(f"toml: taken by one alone: {text[:120]!r} ({len(text)} bytes)", file=sys.stderr)
    print(f"toml: {len(made)} documents tried, {len(wrong)} taken by one alone")
    return 1 if wrong else 0


sys.exit(main())
