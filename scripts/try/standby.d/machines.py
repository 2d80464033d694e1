"""Three machines of one kernel: each has a network namespace, mounts and processes of its own, an ssh server, and a stand-in for
systemctl that starts and stops a hub. What stands below /etc, /var/lib, /var/backups and /run is the machine's own."""
from __future__ import annotations

import os
import pathlib
import shutil
import signal
import subprocess
import time

TOP = pathlib.Path(__file__).resolve().parent.parent.parent.parent
TOOLS = TOP / "deploy" / "bin"
FOLDERS = ("etc", "var/lib", "var/backups", "run")
CIRCLE = "payments"
STORE = f"var/lib/private/iodef-hub/{CIRCLE}/hub.db"
HUB_PORT, QUEUE_PORT, FRONT_PORT = 21010, 21011, 8080

# What the script of the standby asks of systemctl: the hub itself, nginx's settings, and units that the trial has no use for,
# which are noted.
SYSTEMCTL = """#!/bin/bash
echo "$*" >>/run/systemctl.asked
pid=/run/iodef-hub.pid
case "$*" in
'reload nginx.service') exec nginx -s reload ;;
start*iodef-hub@*)
    . /etc/iodef-hub/CIRCLE.conf
    setsid "$IODEF_HUB_PROGRAM" serve /STORE "$PORT" 4294967295 >/run/hub.said 2>&1 </dev/null 9>&- &
    echo $! >$pid
    for ((tries = 0; tries < 600; tries++)); do
        ! grep -qs listening /run/hub.said || exit 0
        sleep 0.1
    done
    exit 1 ;;
*disable*iodef-hub@*)
    [ -e $pid ] || exit 0
    hub=$(cat $pid)
    kill "$hub"
    # Nobody on this machine waits for it, so it stays as a zombie.
    while grep -qs '^State:.[^Z]' "/proc/$hub/status"; do sleep 0.05; done
    rm $pid ;;
esac
"""

SSHD = """Port 22
HostKey /etc/ssh/trial_key
AuthorizedKeysFile /etc/ssh/trial_keys
PidFile /run/sshd.pid
StrictModes no
UsePAM no
PasswordAuthentication no
PermitRootLogin forced-commands-only
"""

NGINX = """user root;
pid /run/nginx.pid;
worker_processes 2;
error_log /run/nginx.error;
events { worker_connections 512; }
http {
    access_log off;
    client_body_temp_path /run/body;
    proxy_temp_path /run/proxy;
    fastcgi_temp_path /run/fastcgi;
    uwsgi_temp_path /run/uwsgi;
    scgi_temp_path /run/scgi;
    include FOLDER/iodef-hub-http.conf;
    upstream iodef_hub_payments { include /etc/iodef-hub-standby/payments.upstream; }
    server {
        listen FRONT_PORT;
        set $iodef_hub_circle payments;
        include FOLDER/iodef-hub-errors.conf;
        location / { include FOLDER/iodef-hub-api.conf; proxy_pass http://iodef_hub_payments; }
    }
}
"""


def run(*words: str | pathlib.Path, given: str | None = None, wanted: int | None = 0) -> subprocess.CompletedProcess[str]:
    ran = subprocess.run(words, input=given, capture_output=True, text=True, timeout=1800)
    if wanted is not None and ran.returncode != wanted:
        raise RuntimeError(f"{' '.join(map(str, words))}: status {ran.returncode}: {ran.stderr}{ran.stdout}")
    return ran


class Machine:
    """A machine that can be switched off and on again. Its folders stay."""

    def __init__(self, name: str, folder: pathlib.Path, program: str) -> None:
        self.name, self.folder, self.program = name, folder / name, program
        self.net = f"hub-{name}-{os.getpid()}"
        self.holder: subprocess.Popen[str] | None = None
        self.init = 0
        for each in FOLDERS[1:]:
            (self.folder / each).mkdir(parents=True)
        # (what this host has of a hub is none of the machine's)
        shutil.copytree("/etc", self.folder / "etc", symlinks=True, ignore_dangling_symlinks=True, ignore=shutil.ignore_patterns("iodef-hub*"))
        for each in ("iodef-hub", "iodef-hub-standby"):
            (self.folder / "etc" / each).mkdir()
        (self.folder / "bin").mkdir()
        for tool in TOOLS.iterdir():
            (self.folder / "bin" / tool.name).symlink_to(tool)
        self.tool("iodef-hub", f'#!/bin/sh\nexec {program} "$@"\n')
        self.tool("systemctl", SYSTEMCTL.replace("CIRCLE", CIRCLE).replace("STORE", STORE))
        self.tool("nginx", '#!/bin/sh\nexec /usr/sbin/nginx -c /etc/nginx.conf "$@"\n')
        self.by_ssh()
        run("ssh-keygen", "-q", "-t", "ed25519", "-N", "", "-C", name, "-f", self.folder / "etc/ssh/trial_key")
        (self.folder / "etc/ssh/trial_config").write_text(SSHD)
        (self.folder / "etc/ssh/trial_keys").touch()
        run("ip", "netns", "add", self.net)

    def path(self) -> str:
        return f"{self.folder / 'bin'}:/usr/sbin:/usr/bin:/sbin:/bin"

    def tool(self, name: str, text: str) -> None:
        file = self.folder / "bin" / name
        file.unlink(missing_ok=True)  # it may be a link to the package's own
        file.write_text(text)
        file.chmod(0o755)

    def by_ssh(self, never: str = "") -> None:
        """What the forced commands start. At a word that is never answered, the login's own process is stopped."""
        hangs = f'if [ "$SSH_ORIGINAL_COMMAND" = {never} ]; then kill -STOP $PPID; exec sleep 1000; fi\n' if never else ""
        self.tool("by-ssh", f'#!/bin/sh\n{hangs}PATH={self.path()} IODEF_HUB_PROGRAM={self.program} exec iodef-hub-standby "$@"\n')

    def on(self) -> None:
        """Starts the machine with its ssh server."""
        for each in (self.folder / "run").iterdir():
            shutil.rmtree(each) if each.is_dir() else each.unlink()
        mounts = "; ".join(f"mount --bind {self.folder / each} /{each}" for each in FOLDERS)
        words = f"mount --make-rprivate /; {mounts}; mount -t proc proc /proc; ip link set lo up; mkdir -p /run/sshd /run/haproxy; echo on; exec sleep 100000"
        self.holder = subprocess.Popen(
            ["ip", "netns", "exec", self.net, "unshare", "--mount", "--pid", "--fork", "--kill-child", "sh", "-euc", words], stdout=subprocess.PIPE, text=True)
        assert self.holder.stdout and self.holder.stdout.readline() == "on\n"
        children = pathlib.Path(f"/proc/{self.holder.pid}/task/{self.holder.pid}/children").read_text().split()
        self.init = int(children[0])
        self.do("/usr/sbin/sshd", "-f", "/etc/ssh/trial_config")

    def off(self) -> None:
        """Kills all that runs on the machine at once, as a cut of its power does."""
        if self.holder is not None:
            os.kill(self.init, signal.SIGKILL)
            self.holder.wait()
            self.holder = None

    def inside(self, *words: str | pathlib.Path) -> list[str]:
        own = [f"PATH={self.path()}", f"IODEF_HUB_PROGRAM={self.program}", "HOME=/run"]
        return ["nsenter", "-t", str(self.init), "-n", "-m", "-p", "env", *own, *map(str, words)]

    def do(self, *words: str | pathlib.Path, given: str | None = None, wanted: int | None = 0) -> subprocess.CompletedProcess[str]:
        return run(*self.inside(*words), given=given, wanted=wanted)

    def start_hub(self) -> None:
        self.do("systemctl", "start", f"iodef-hub@{CIRCLE}.service")

    def start_queue(self, address: str) -> None:
        """HAProxy with the package's own settings, at an address that the proxy reaches."""
        text = (TOP / "deploy/haproxy/haproxy.cfg").read_text().split("frontend health")[0]
        assert "bind 127.0.0.1:21011" in text
        (self.folder / "etc/queue.cfg").write_text(text.replace("bind 127.0.0.1:21011", f"bind {address}:{QUEUE_PORT}"))
        self.do("haproxy", "-f", "/etc/queue.cfg", "-D")

    def start_front(self) -> None:
        """nginx with the package's own files, whose includes name the folder that they are in here."""
        settings = self.folder / "etc" / "nginx-files"
        settings.mkdir()
        for file in (TOP / "deploy" / "nginx").glob("*.conf"):
            (settings / file.name).write_text(file.read_text().replace("/usr/share/iodef-hub/nginx", str(settings)))
        (self.folder / "etc/nginx.conf").write_text(NGINX.replace("FOLDER", str(settings)).replace("FRONT_PORT", str(FRONT_PORT)))
        self.do("nginx")

    def allow(self, other: Machine, *command: str) -> None:
        """What the other machine's key may run here, and nothing else."""
        key = (other.folder / f"etc/iodef-hub-standby/{CIRCLE}.key.pub").read_text()
        line = f'command="{self.folder / "bin/by-ssh"} {" ".join(command)}",restrict {key}'
        with (self.folder / "etc/ssh/trial_keys").open("a") as file:
            file.write(line)

    def make_key(self) -> None:
        run("ssh-keygen", "-q", "-t", "ed25519", "-N", "", "-f", self.folder / f"etc/iodef-hub-standby/{CIRCLE}.key")

    def know(self, other: Machine, address: str) -> None:
        key = (other.folder / "etc/ssh/trial_key.pub").read_text()
        with (self.folder / "etc/iodef-hub-standby/known_hosts").open("a") as file:
            file.write(f"{address} {key}")

    def away(self) -> None:
        """Takes the machine out for good."""
        self.off()
        run("ip", "netns", "del", self.net, wanted=None)


def connect(one: Machine, other: Machine, network: int) -> tuple[str, str]:
    """A cable between two machines: the address of each."""
    addresses = f"10.77.{network}.1", f"10.77.{network}.2"
    names = f"{one.name[:4]}{network}", f"{other.name[:4]}{network}"
    run("ip", "link", "add", names[0], "netns", one.net, "type", "veth", "peer", "name", names[1], "netns", other.net)
    for machine, name, address in ((one, names[0], addresses[0]), (other, names[1], addresses[1])):
        run("ip", "-n", machine.net, "addr", "add", f"{address}/30", "dev", name)
        run("ip", "-n", machine.net, "link", "set", name, "up")
    return addresses


def cut(machine: Machine, network: int, is_cut: bool) -> None:
    """Draws the cable out at this machine, or puts it back."""
    run("ip", "-n", machine.net, "link", "set", f"{machine.name[:4]}{network}", "down" if is_cut else "up")


def cable_to(machine: Machine, network: int) -> str:
    """A cable between this trial itself and a machine; the machine's address."""
    name = f"hubt{os.getpid() % 100000}"
    run("ip", "link", "add", name, "type", "veth", "peer", "name", "trial", "netns", machine.net)
    run("ip", "addr", "add", f"10.77.{network}.1/30", "dev", name)
    run("ip", "link", "set", name, "up")
    run("ip", "-n", machine.net, "addr", "add", f"10.77.{network}.2/30", "dev", "trial")
    run("ip", "-n", machine.net, "link", "set", "trial", "up")
    return f"10.77.{network}.2"


def wait_for(what: str, is_so: object, seconds: float = 60) -> None:
    assert callable(is_so)
    end = time.monotonic() + seconds
    while not is_so():
        if time.monotonic() > end:
            raise RuntimeError(f"{what} didn't come within {seconds} seconds")
        time.sleep(0.1)
