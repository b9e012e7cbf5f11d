#!/usr/bin/env python3
"""Asks `quotactl imap` each of its commands: by Python's imaplib over a pipe, and then by curl over a socket of this machine,
if there are curl and the adapter socat. It prints each answer, and ends with status 1 if one is not as expected.

It is run by hand, once `./quotactl build` has built the program: tools/try_imap.py, or tools/try_imap.py PROGRAM for another
one. It makes a folder with an accounts file and the mail, and removes it. It proves nothing and is no part of the gate.
"""

import imaplib
import os
import re
import shlex
import shutil
import socket
import subprocess
import sys
import tempfile
import time

ACCOUNTS = """\
[[account]]
name = "ann"
password = "password"
token = "token"
admin = true
[[account.root]]
storage = 2
messages = 10
"""
CAPABILITY = "CAPABILITY IMAP4rev1 QUOTA QUOTASET QUOTA=RES-STORAGE QUOTA=RES-MESSAGE STATUS=SIZE"
MESSAGE = b"Subject: hello\r\n\r\nhello\r\n"


def tell(asked, answer, wanted):
    """Prints an answer, and returns whether it is as expected."""
    print(f"{asked}: {answer}")
    if answer != wanted:
        print(f"    expected: {wanted}")
    return answer == wanted


def next_second():
    """Waits for the next second. One account is not opened twice in a second, if a message came in between."""
    time.sleep(1.1 - time.time() % 1)


def shown(argument):
    return f"{len(argument)} octets" if isinstance(argument, bytes) else repr(argument)


def session(words, greeting, steps):
    """Runs one session by imaplib, and yields of each step whether its answer is as expected."""
    next_second()
    try:
        client = imaplib.IMAP4_stream(f"exec ./serve {words}")
        yield tell(f"imaplib, imap {words}".rstrip(), client.welcome, greeting)
        for name, arguments, wanted in steps:
            answer = getattr(client, name)(*arguments)
            yield tell(f"imaplib, {name}({', '.join(map(shown, arguments))})", answer, wanted)
        yield tell("imaplib, status of the program", client.process.returncode, 0)
    except imaplib.IMAP4.error as error:
        yield tell("imaplib", f"error: {error}", "no error")


def by_imaplib():
    """Yields of each answer to imaplib whether it is as expected."""
    used = [b'"" (STORAGE 0 2 MESSAGE 0 10)']
    seen = r"(\Seen)"
    steps = [
        ("capability", (), ("OK", [CAPABILITY.partition(" ")[2].encode()])),
        ("noop", (), ("OK", [b"NOOP completed"])),
        ("login", ("ann", "password"), ("OK", [b"LOGIN completed"])),
        ("getquota", ('""',), ("OK", used)),
        ("getquotaroot", ("INBOX",), ("OK", [[b'INBOX ""'], used])),
        ("setquota", ('""', "(STORAGE 3 MESSAGE 20)"), ("OK", [b'"" (STORAGE 0 3 MESSAGE 0 20)'])),
        ("append", ("INBOX", seen, int(time.time()), MESSAGE), ("OK", [b"APPEND completed"])),
        ("append", ("INBOX", None, None, b"x" * 3072), ("NO", [b"[OVERQUOTA] Quota exceeded"])),
        ("status", ("INBOX", "(MESSAGES UNSEEN)"), ("OK", [b"INBOX (MESSAGES 1 UNSEEN 0)"])),
        ("logout", (), ("BYE", [b"quotad closing"])),
    ]
    yield from session("", b"* OK quotad ready", steps)
    yield from session("ann", b"* PREAUTH quotad ready", steps[-2:])


def free_port():
    """Returns a port of the loopback interface that is free now."""
    with socket.create_server(("127.0.0.1", 0)) as listener:
        return listener.getsockname()[1]


def curl(words, mailbox):
    """Runs curl over one session, and returns its status and what the program wrote after the login, without tags."""
    next_second()
    port = free_port()
    listen = f"TCP-LISTEN:{port},bind=127.0.0.1,reuseaddr"
    asked = ["curl", "--silent", "--verbose", "--max-time", "20", "--user", "ann:password", *words]
    adapter = subprocess.Popen(["socat", listen, "EXEC:./serve"], stderr=subprocess.PIPE)
    try:
        for _ in range(100):
            ran = subprocess.run([*asked, f"imap://127.0.0.1:{port}/{mailbox}"], capture_output=True, check=False)
            if ran.returncode != 7:
                break
            # The adapter does not listen yet.
            time.sleep(0.1)
        said = adapter.communicate(timeout=20)[1]
    finally:
        adapter.kill()
    if ran.returncode:
        sys.stderr.buffer.write(said)
    lines = re.findall(r"^< (?:A\d+ )?(.*?)\r?$", ran.stderr.decode(), flags=re.M)
    login = "OK LOGIN completed"
    return ran.returncode, lines[lines.index(login) + 1 :] if login in lines else lines


def by_curl():
    """Yields of each answer to curl whether it is as expected."""
    with open("message", "wb") as it:
        it.write(MESSAGE)
    row = '* QUOTA "" (STORAGE 1 3 MESSAGE 1 20)'
    steps = [
        (["-X", "CAPABILITY"], "", [f"* {CAPABILITY}", "OK CAPABILITY completed"]),
        (["-X", "NOOP"], "", ["OK NOOP completed"]),
        (["-X", 'GETQUOTA ""'], "", [row, "OK GETQUOTA completed"]),
        (["-X", "GETQUOTAROOT INBOX"], "", ['* QUOTAROOT INBOX ""', row, "OK GETQUOTAROOT completed"]),
        (["-X", 'SETQUOTA "" (STORAGE 4)'], "", ['* QUOTA "" (STORAGE 1 4)', "OK SETQUOTA completed"]),
        (["-T", "message"], "INBOX", ["+ Ready", "OK APPEND completed"]),
        (["-X", "STATUS INBOX (MESSAGES UNSEEN)"], "", ["* STATUS INBOX (MESSAGES 2 UNSEEN 0)", "OK STATUS completed"]),
        (["-X", "LOGOUT"], "", ["* BYE quotad closing", "OK LOGOUT completed"]),
    ]
    for words, mailbox, wanted in steps:
        status, lines = curl(words, mailbox)
        yield tell(f"curl {shlex.join(words)} imap://../{mailbox}", (status, lines[: len(wanted)]), (0, wanted))


def main():
    own = os.path.join(os.path.dirname(os.path.dirname(os.path.abspath(__file__))), "quotactl")
    program = os.path.abspath(sys.argv[1]) if len(sys.argv) > 1 else own
    with tempfile.TemporaryDirectory() as folder:
        os.chdir(folder)
        with open("accounts.toml", "w", encoding="utf-8") as it:
            it.write(ACCOUNTS)
        with open("serve", "w", encoding="utf-8") as it:
            it.write(f'#!/bin/sh\nexec {shlex.quote(program)} imap "$@"\n')
        os.chmod("serve", 0o700)
        right = list(by_imaplib())
        lacking = [tool for tool in ("curl", "socat") if not shutil.which(tool)]
        if lacking:
            print(f"curl is skipped: no {' and no '.join(lacking)}")
        else:
            right += by_curl()
        os.chdir("/")
    print(f"{right.count(True)} answers as expected, {right.count(False)} not")
    return 0 if all(right) else 1


if __name__ == "__main__":
    sys.exit(main())
