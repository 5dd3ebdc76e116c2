#!/usr/bin/env python3
"""Sends mails by the machine's own sendmail: those of due.py, or one that says that a unit of systemd has failed.

    tell.py mails FOLDER [--sendmail PROGRAM]
    tell.py failed UNIT --to ADDRESSES [--sendmail PROGRAM]

mails   sends each NAME.eml of FOLDER to whom it names. It stays there, until due.py puts the next one in its place
failed  sends the status and the last lines of UNIT to ADDRESSES, which spaces part; to nobody where none is given

PROGRAM is /usr/sbin/sendmail where none is named. It gets the addresses as its words, and the mail on its standard
input: no shell reads either. The status is 0 where all was sent, 1 where one was not; the others are sent all the same.
"""
import argparse
import email.policy
import os
import pathlib
import subprocess
import sys
from email.message import EmailMessage, Message
from email.parser import BytesParser
from typing import Iterator

# What is read from beside this file leaves none there.
sys.dont_write_bytecode = True
from due import address_of, new_mail

# So many of the last lines of a unit are told.
LINES = 40


def sent(mail: Message, program: str) -> bool:
    """Whether sendmail took a mail. What it says goes where ours goes."""
    addresses = [address.addr_spec for address in mail["To"].addresses]
    done = subprocess.run([program, "-i", "--", *addresses], input=mail.as_bytes(), check=False)
    print(f"{mail['Subject']}: {'sent to' if not done.returncode else f'status {done.returncode} for'}",
          *addresses, flush=True)
    return not done.returncode


def mails_in(folder: str) -> Iterator[Message]:
    for path in sorted(pathlib.Path(folder).glob("*.eml")):
        yield BytesParser(policy=email.policy.default).parsebytes(path.read_bytes())


def mail_of_failure(unit: str, to: str) -> EmailMessage:
    host = os.uname().nodename
    told = subprocess.run(["systemctl", "status", "--no-pager", "--full", f"--lines={LINES}", "--", unit],
                          stdin=subprocess.DEVNULL, stdout=subprocess.PIPE, stderr=subprocess.STDOUT, check=False)
    return new_mail(address_of(f"keyreg@{host}"), map(address_of, to.split()), f"{unit} has failed on {host}",
                    told.stdout.decode(errors="replace"))


def main() -> int:
    parser = argparse.ArgumentParser(description="Sends mails by the machine's own sendmail.")
    acts = parser.add_subparsers(dest="act", required=True)
    for act, what in (("mails", "folder"), ("failed", "unit")):
        of_act = acts.add_parser(act)
        of_act.add_argument(what)
        of_act.add_argument("--sendmail", default="/usr/sbin/sendmail", metavar="PROGRAM")
        if act == "failed":
            of_act.add_argument("--to", required=True, metavar="ADDRESSES")
    words = parser.parse_args()
    try:
        if words.act == "mails":
            return 0 if all([sent(mail, words.sendmail) for mail in mails_in(words.folder)]) else 1
        if not words.to.strip():
            print(f"{words.unit} has failed, and nobody is to be told")
            return 0
        return 0 if sent(mail_of_failure(words.unit, words.to), words.sendmail) else 1
    except (OSError, ValueError) as fault:
        print(f"tell: {fault}", file=sys.stderr)
        return 1


if __name__ == "__main__":
    sys.exit(main())
