"""run_scripts.py SCRIPT REPLIES ..: runs scripts through the Python module, and compares replies."""
import sys

import cagzhomul


def lines_of(text):
    """The lines of a script, without their endings; a last one without an ending if it is not empty."""
    lines = text.split(b"\n")
    *whole, last = lines
    return [line.removesuffix(b"\r") for line in whole] + ([last] if last else [])


def replies_to(text):
    replies = []
    with cagzhomul.open() as session:
        for line in lines_of(text):
            try:
                replies.append(session.reply_to(line))
            except cagzhomul.BadLine:
                replies.append("bad line\n")
    return "".join(replies).encode()


def main():
    paths = sys.argv[1:]
    for script, replies in zip(paths[::2], paths[1::2]):
        with open(script, "rb") as text, open(replies, "rb") as due:
            if replies_to(text.read()) != due.read():
                sys.exit(f"{script}: the replies are not those of {replies}")
    print(f"{len(paths) // 2} scripts have their replies through Python")


if __name__ == "__main__":
    main()
