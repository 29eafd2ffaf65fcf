"""Lines and scripts of the greatest size and above it, and bytes that are no UTF-8."""
from program import MAX_LINE, MAX_SCRIPT, run, short
from language import judge, unread_fault

FRONT = b"table t (id int key, a int, b text)\nopen\nlease s at 0\n"
FRONT_REPLIES = b"ok\nok version 1\nok lease 1 0 10\n"


def answers(script, replies, status):
    """The exact replies and status, and what any run has to be."""
    script, replies = (part() if callable(part) else part for part in (script, replies))
    ended = run(data=script)
    if (ended.status, ended.out, ended.err) != (status, replies, b""):
        return f"expected status {status}, output {short(replies)}, got {ended}", 1
    return judge(script, ended), 1


def is_unread(script, fault):
    return unread_fault(run(data=script()), fault), 1


def each(scripts):
    """Each of the scripts, with what docs/SCRIPT.md says of it."""
    scripts = scripts()
    for runs, script in enumerate(scripts):
        if wrong := judge(script, run(data=script)):
            return f"{short(script)}: {wrong}", runs + 1
    return None, len(scripts)


def filled(size, line=MAX_LINE + 1):
    """Remarks and blank lines of so many bytes in all, each at most `line` with its LF."""
    parts = []
    while size > 0:
        now = min(size, line)
        parts.append((b"#" if len(parts) % 2 == 0 else b" ") * (now - 1) + b"\n")
        size -= now
    return b"".join(parts)


NOT_UTF8 = [b"\xff", b"\xfe", b"\x80", b"\xbf", b"\xc0\x80", b"\xc1\xbf", b"\xc3", b"\xc3'", b"\xe0\x80\x80", b"\xe2\x82", b"\xe2\x82'",
            b"\xed\xa0\x80", b"\xf0\x80\x80\x80", b"\xf0\x9f\x98", b"\xf4\x90\x80\x80", b"\xf5\x80\x80\x80", b"\xf8\x88\x80\x80\x80"]
UTF8 = [chr(code).encode() for code in (0x7f, 0x80, 0x7ff, 0x800, 0xd7ff, 0xe000, 0xfeff, 0xfffd, 0xffff, 0x10000, 0x10ffff)]


def with_ff():
    script = FRONT + b"txn s at 0: insert t (1) set b = 'x'\n# a remark\n\ncheck\n"
    return [script[:place] + b"\xff" + script[place:] for place in range(len(script) + 1)]


def amid(parts):
    """Each of the parts by itself, in a remark, in a text and in a word."""
    around = ((b"", b""), (b"# ", b"\n"), (FRONT + b"txn s at 0: insert t (1) set b = '", b"'\ncheck\n"), (FRONT + b"lease s", b" at 0\n"))
    return [before + part + behind for part in parts for before, behind in around]


def size_cases():
    yield "a line of 65,536 bytes", answers, (b"length 5".ljust(MAX_LINE) + b"\n", b"ok\n", 0)
    yield "a line of 65,537 bytes", answers, (b"length 5".ljust(MAX_LINE + 1) + b"\nlength 5\n", b"bad line\nok\n", 1)
    yield "a line of 65,536 bytes and CR LF", answers, (b"length 5".ljust(MAX_LINE) + b"\r\n", b"ok\n", 0)
    yield "a line of 65,536 bytes and CR at the end", answers, (b"length 5".ljust(MAX_LINE) + b"\r", b"bad line\n", 1)
    yield "a last line of 65,537 bytes without LF", answers, (b"length 5".ljust(MAX_LINE + 1), b"bad line\n", 1)
    yield "a remark of 65,536 bytes", answers, (b"#" * MAX_LINE + b"\n", b"", 0)
    yield "a remark of 65,537 bytes", answers, (b"#" * (MAX_LINE + 1) + b"\n", b"bad line\n", 1)
    yield "65,536 spaces", answers, (b" " * MAX_LINE + b"\n", b"", 0)
    yield "65,537 spaces", answers, (b" " * (MAX_LINE + 1) + b"\n", b"bad line\n", 1)
    yield "a remark of 65,536 bytes in letters of two", answers, (b"#" + b"\xc3\xa9" * 32_767 + b"#\n", b"", 0)
    yield "a remark of 65,537 bytes in letters of two", answers, (b"#" + b"\xc3\xa9" * 32_768 + b"\n", b"bad line\n", 1)
    yield "no byte", answers, (b"", b"", 0)
    yield "one LF", answers, (b"\n", b"", 0)
    yield "one CR", answers, (b"\r", b"bad line\n", 1)
    yield "one byte 0", answers, (b"\0", b"bad line\n", 1)
    yield "1,000,000 empty lines", answers, (lambda: b"\n" * 1_000_000, b"", 0)
    yield "a million bad lines", answers, (lambda: b"x\n" * 1_000_000, lambda: b"bad line\n" * 1_000_000, 1)
    yield "a line of a million bytes", answers, (lambda: b"x" * 1_000_000, b"bad line\n", 1)
    yield "a remark of 16,777,216 bytes", answers, (lambda: b"#" * MAX_SCRIPT, b"bad line\n", 1)
    yield "16,777,216 bytes of remarks and blanks", answers, (lambda: filled(MAX_SCRIPT), b"", 0)
    yield "16,777,216 bytes of short remarks and blanks", answers, (lambda: filled(MAX_SCRIPT, 100), b"", 0)
    yield "16,777,216 bytes with a command at the end", answers, (lambda: filled(MAX_SCRIPT - 5) + b"open\n", b"refused BadTable\n", 0)
    too_long = b"fault: too long\n"
    yield "16,777,217 bytes of remarks and blanks", is_unread, (lambda: filled(MAX_SCRIPT + 1), too_long)
    yield "16,777,217 bytes, a command first", is_unread, (lambda: b"open\n" + filled(MAX_SCRIPT - 4), too_long)
    yield "16,777,217 bytes, the last of them FF", is_unread, (lambda: filled(MAX_SCRIPT) + b"\xff", too_long)
    yield "20,000,000 bytes, the first of them FF", is_unread, (lambda: b"\xff" + filled(20_000_000 - 1), too_long)
    yield "16,777,216 bytes, the last of them FF", is_unread, (lambda: filled(MAX_SCRIPT - 1) + b"\xff", b"fault: not utf-8\n")
    yield "FF at each place", each, (with_ff,)
    yield "other bytes that are no UTF-8", each, (lambda: amid(NOT_UTF8),)
    yield "the bounds of UTF-8", each, (lambda: amid(UTF8),)
