"""What `iodef-hub-ask watch` tells and runs, and what the example mails, against a mail server of its own on loopback."""
from __future__ import annotations

import copy
import json
import os
import pathlib
import signal
import socketserver
import subprocess
import sys
import threading
from collections.abc import Callable
from typing import Any

TOP = pathlib.Path(__file__).resolve().parent.parent.parent.parent
MAIL_NEWS = TOP / "clients" / "python" / "examples" / "mail-news"
# Writes a line of what it is given: its words, standard input, and the names and values of its environment that are the client's.
NOTES = """#!/bin/sh
printf 'told %s: ' "$*" >>"$NOTES"
{ cat; env | grep IODEF_HUB | sort | tr '\\n' ' '; echo; } >>"$NOTES"
echo written to standard output
[ ! -e "$NOTES.fail" ] || exit 7
"""
Check = Callable[..., None]
Ask = Callable[..., tuple[int, str]]


class Mail(socketserver.StreamRequestHandler):
    """A mail server that keeps what it is sent, or refuses each recipient."""

    def handle(self) -> None:
        kept: Any = self.server
        self.wfile.write(b"220 mail\r\n")
        for line in self.rfile:
            word = line[:4].upper()
            if word == b"DATA":
                self.wfile.write(b"354 go on\r\n")
                text = b"".join(iter(self.rfile.readline, b".\r\n"))
                kept.texts.append(text.decode())
            refused = word == b"RCPT" and kept.refuses
            self.wfile.write(b"550 no\r\n" if refused else b"221 bye\r\n" if word == b"QUIT" else b"250 ok\r\n")
            if word == b"QUIT":
                return


class MailServer(socketserver.ThreadingTCPServer):
    def __init__(self, port: int) -> None:
        super().__init__(("127.0.0.1", port), Mail)
        self.texts: list[str] = []
        self.refuses = False
        threading.Thread(target=self.serve_forever, daemon=True).start()


def program(folder: pathlib.Path, name: str, text: str) -> pathlib.Path:
    path = folder / name
    path.write_text(text)
    path.chmod(0o755)
    return path


class Watching:
    """The bank's watch, with what its command noted."""

    def __init__(self, check: Check, bank: Any, folder: pathlib.Path) -> None:
        self.check, self.bank, self.folder = check, bank, folder
        self.notes = folder / "notes"
        self.command = program(folder, "news", NOTES)
        self.bank.environment["NOTES"] = str(self.notes)
        self.posted = 0

    def post(self, secret: str = "not for a mail") -> int:
        """A report with a text that no command may get."""
        self.posted += 1
        incident = {"purpose": "reporting", "IncidentID": {"id": f"{secret} {self.posted}", "name": "x"}, "GenerationTime": secret, "Contact": [{"role": secret}]}
        status, told = self.bank("post", "-", "3", "--any-community", given=json.dumps({"Incident": [incident]}).encode())
        assert status == 0, self.bank.errors
        return int(told)

    def look(self, *words: str, rounds: int = 1) -> tuple[int, str]:
        self.notes.unlink(missing_ok=True)
        status, told = self.bank("watch", "--rounds", str(rounds), "--every", "0.1", *words)
        return status, str(told)

    def told(self) -> list[str]:
        return self.notes.read_text().splitlines() if self.notes.exists() else []


def by_watching(check: Check, bank: Any, hub: Any, between: Any, folder: pathlib.Path, port: int, away: str) -> None:
    watching = Watching(check, bank, folder)
    newest = watching.post()
    by_command(watching, hub, newest)
    by_state(watching, newest)
    by_addressed(watching)
    by_unit(check)
    by_faults(watching, hub, between, away)
    by_mail(watching, port)


def by_command(watching: Watching, hub: Any, newest: int) -> None:
    check, command, line = watching.check, str(watching.command), f"{newest}\tr1\torg 2\n"
    after = ("--from", str(newest - 1))
    url = f"IODEF_HUB_URL={watching.bank.environment['IODEF_HUB_URL']} "
    check("command watch --exec tells", (watching.look(*after, "--exec", command), watching.bank.errors), ((0, line), "written to standard output\n"))
    check("and gives number and source alone, an empty input and no key", watching.told(), [f"told {newest} 2: {url}"])
    by_file = dict(watching.bank.environment)
    key = watching.folder / "watch.key"
    key.write_text("bank-key\n")
    del watching.bank.environment["IODEF_HUB_KEY"]
    watching.bank.environment["IODEF_HUB_KEY_FILE"] = str(key)
    watching.look(*after, "--exec", command)
    check("nor the name of the key's file", watching.told(), [f"told {newest} 2: {url}"])
    watching.bank.environment = by_file
    check("command watch --exec --all", (watching.look("--all", "--exec", command, rounds=2)[0], len(watching.told())), (0, newest))
    fail = pathlib.Path(f"{watching.notes}.fail")
    fail.touch()
    later = watching.post()
    check("what a command failed at isn't told", (watching.look(*after, "--exec", command, rounds=2), [each.split(":")[0] for each in watching.told()]),
          ((0, ""), [f"told {newest} 2"] * 2))
    words = f"iodef-hub-ask: {command} ended with status 7; incident {newest} and those after it are tried again at the next look"
    check("and standard error says so", watching.bank.errors.splitlines()[1::2], [words] * 2)
    threading.Timer(1.5, fail.unlink).start()
    check("until the command does it", watching.look(*after, "--exec", command, rounds=40)[1], f"{line}{later}\tr1\torg 2\n")
    told = [each.split(":")[0] for each in watching.told()]
    check("in the order of their numbers", told, [f"told {newest} 2"] * (len(told) - 1) + [f"told {later} 2"])
    for text, why in (("#!/bin/sh\nkill -9 $$\n", f"was killed by signal {int(signal.SIGKILL)}"), ("#!/nowhere\n", "couldn't be run: No such file or directory")):
        other = program(watching.folder, "other", text)
        check(f"a command that {why}", (watching.look(*after, "--exec", str(other))[1], why in watching.bank.errors), ("", True))
    slow = program(watching.folder, "slow", "#!/bin/sh\nexec sleep 30\n")
    seconds, hub.COMMAND_SECONDS = hub.COMMAND_SECONDS, 0.3
    check("a command that doesn't end is given up", hub.handed_over(str(slow), hub.Entry(1, 1, 2)), False)
    hub.COMMAND_SECONDS = seconds
    asked = watching.look("--exec", "/nowhere/news")
    check("a command that isn't there is usage", (asked, watching.bank.errors), ((2, ""), "iodef-hub-ask: --exec /nowhere/news: there is no such program\n"))


def by_state(watching: Watching, newest: int) -> None:
    """What is told outlasts the watch in a file."""
    check, command = watching.check, str(watching.command)
    for words in ((), ("--all",)):
        name = " ".join(("watch --state", *words))
        state = watching.folder / f"state{len(words)}"
        keep = ("--state", str(state), "--exec", command, *words)
        check(f"command {name}: what stands there is no news", (watching.look(*keep, rounds=2), watching.told()), ((0, ""), []))
        first = watching.post()
        check("  but what comes then", watching.look(*keep), (0, f"{first}\tr1\torg 2\n"))
        check("  and it is told once", (watching.look(*keep), watching.told()), ((0, ""), []))
        check("  nothing else stands beside the file", sorted(each.name for each in watching.folder.glob("state*") if each.name.startswith(state.name)), [state.name])
        fail = pathlib.Path(f"{watching.notes}.fail")
        fail.touch()
        second = watching.post()
        check("  where the command failed", watching.look(*keep), (0, ""))
        fail.unlink()
        check("  the next watch tells it", watching.look(*keep), (0, f"{second}\tr1\torg 2\n"))
        started = watching.look("--from", str(second - 1), "--state", str(watching.folder / f"other{len(words)}"), *words)
        check("  with --from a new file tells what stands above it", started[1].endswith(f"{second}\tr1\torg 2\n") and started[0] == 0)
    replaced = ("replace", str(newest), "-", "3", "--any-community", "--no-gates", "--drop-permissions")
    document = json.loads(watching.bank("show", str(newest))[1])
    watching.bank(*replaced, given=json.dumps(document).encode())
    check("with --all a new revision is news", watching.look("--state", str(watching.folder / "state1"), "--exec", command, "--all"), (0, f"{newest}\tr2\torg 2\n"))
    check("  and without it none", f"{newest}\t" in watching.look("--state", str(watching.folder / "state0"), "--exec", command)[1], False)
    for text, words in (("{", ()), ("[]", ()), ('{"last":"7"}', ()), ('{"last":7,"revisions":{}}', ()), ('{"last":7}', ("--all",)), ('{"last":7,"revisions":{"x":1}}', ("--all",))):
        state = watching.folder / "bad"
        state.write_text(text)
        check(f"a file that holds {text} is usage", (watching.look("--state", str(state), *words), "was not written by a watch" in watching.bank.errors), ((2, ""), True))
    check("a file that can't be written is told", watching.look("--state", "/nowhere/state", "--from", "0")[0], 2)


def by_addressed(watching: Watching) -> None:
    """Who is addressed late, in an incident of a low number, hears of it."""
    check, bank, state = watching.check, watching.bank, watching.folder / "addressed"
    reader = copy.copy(bank)
    reader.environment = {**bank.environment, "IODEF_HUB_KEY": "stranger-key"}
    fail = pathlib.Path(f"{watching.notes}.fail")

    def look(*words: str, file: pathlib.Path = state) -> tuple[int, str]:
        status, told = reader("watch", "--rounds", "1", "--state", str(file), *words)
        return status, str(told)

    for words in ((), ("--all",)):
        file = watching.folder / f"addressed{len(words)}"
        hidden, line = [watching.post() for _ in range(2)], "{}\tr1\torg 2\n"
        first, second = [line.format(number) for number in hidden]
        bank("address", str(hidden[1]), "person", "4")
        check(f"watch --state {' '.join(words)}: what addresses the caller at first isn't news", look(*words, file=file), (0, ""))
        bank("address", str(hidden[0]), "org", "4")
        bank("address", str(hidden[0]), "person", "4")
        check("  but what does so later, though its number is lower", look(*words, file=file), (0, first))
        check("  and once", look(*words, file=file), (0, ""))
        check("  the file has the numbers", set(hidden) <= set(json.loads(file.read_text())["addressed"]), True)
        bank("unaddress", str(hidden[0]), "person", "4")
        check("  who isn't addressed any more hears nothing", look(*words, file=file), (0, ""))
        bank("address", str(hidden[0]), "person", "4")
        fail.touch()
        check("  addressed again, but the command fails", look(*words, "--exec", str(watching.command), file=file), (0, ""))
        fail.unlink()
        check("  so it is told at the next look", look(*words, "--exec", str(watching.command), file=file), (0, first))
        both = watching.post()
        bank("address", str(both), "person", "4")
        check("  what is new and addressed is told once", [look(*words, file=file), look(*words, file=file)], [(0, line.format(both)), (0, "")])
    state.write_text(json.dumps({"last": both}))
    check("by a file from before, what addresses the caller is told once", [second in look()[1], look()], [True, (0, "")])
    state.write_text(json.dumps({"last": both, "addressed": "x"}))
    check("a file of other numbers is usage", look()[0], 2)
    check("with --from what addresses the caller below isn't news", look("--from", str(both), file=watching.folder / "from"), (0, ""))


def by_unit(check: Check) -> None:
    unit = (TOP / "deploy" / "systemd" / "iodef-hub-watch@.service").read_text().splitlines()
    wanted = ("Environment=EVERY=300 WATCH_WORDS=", "EnvironmentFile=/etc/iodef-hub-watch/%i.conf")
    check("the unit has WATCH_WORDS, empty at first and then by the settings", [line for line in unit if line in wanted], list(wanted))
    check("  as words of its command", [line.endswith(" $WATCH_WORDS") for line in unit if line.startswith("ExecStart=")], [True])


def by_faults(watching: Watching, hub: Any, between: Any, away: str) -> None:
    check = watching.check
    last = watching.post()
    one_try = list(watching.bank.words)
    watching.bank.words += ["--tries", "1"]
    for act in (away, "reset"):
        between.take(act)
        check(f"a watch goes on after {act[:24]!r}", (watching.look("--from", str(last - 1), rounds=2), "goes on" in watching.bank.errors), ((0, f"{last}\tr1\torg 2\n"), True))
    watching.bank.words = one_try


def by_mail(watching: Watching, port: int) -> None:
    """The example, as the watch runs it."""
    check, bank = watching.check, watching.bank
    settings = {"MAIL_FROM": "hub@example.com", "MAIL_TO": "team@example.com", "MAIL_HOST": "127.0.0.1", "MAIL_PORT": str(port)}
    bank.environment.update(settings)
    number = watching.post("secret")
    words = ("--from", str(number - 1), "--exec", str(MAIL_NEWS))
    check("without a mail server nothing is told", (watching.look(*words), "ConnectionRefusedError" in bank.errors), ((0, ""), True))
    server = MailServer(port)
    server.refuses = True
    check("nor where it refuses", (watching.look(*words), "SMTPRecipientsRefused" in bank.errors, server.texts), ((0, ""), True, []))
    server.refuses = False
    check("a mail that was taken is told", watching.look(*words), (0, f"{number}\tr1\torg 2\n"))
    head, _, body = server.texts[-1].replace("\r\n", "\n").partition("\n\n")
    check("it is sent from and to whom the environment says, of number and source", sorted(each for each in head.split("\n") if each.startswith(("From", "To", "Subject"))),
          ["From: hub@example.com", f"Subject: Incident {number} of organisation 2", "To: team@example.com"])
    check("and has nothing else in it", (body, "secret" in server.texts[-1]), (f"Incident {number} of organisation 2 is new at the hub.\n", False))
    for wrong in ((), ("7",), ("7", "2", "3"), ("7", "2\nBcc: x@example.com"), ("x", "2"), ("7", "\u0663")):
        ran = subprocess.run([sys.executable, "-B", MAIL_NEWS, *wrong], env={**os.environ, **settings}, capture_output=True)
        check(f"the example takes no {wrong}", (ran.returncode, len(server.texts)), (2, 1))
    server.shutdown()
    server.server_close()
