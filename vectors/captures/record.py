#!/usr/bin/env python3
"""Records the captures of this folder again, and describes each by tshark.

record.py FOLDER [SCENE ..]

FOLDER gets NAME.pcap or NAME.pcapng, NAME.keys and NAME.json of each scene; of all without SCENE. The programs of a
scene run in a network of their own (unshare), so it needs no root, and nothing leaves that network. A scene whose
programs aren't installed is skipped, with a word. Of Debian 12: wireshark-common, tshark, iproute2, ngtcp2-client,
ngtcp2-server, caddy, chromium, firefox-esr; of later ones openssl 3.5, curl, nginx and HAProxy with HTTP/3,
python3-aioquic. AIOQUIC names the Python that has aioquic, python3 without it. QUINN names the program that cargo
builds in stacks/quinn/peer with the crates of `scripts/lib/cargo-source DIR quinn rustls tokio`, quinn-peer without it.
Exit status: 0 each scene was recorded or skipped, 1 one failed, 2 usage error.
"""

import base64
import contextlib
import gzip
import hashlib
import os
import shutil
import signal
import subprocess
import sys
import tempfile
import time
from pathlib import Path

import describe
from scenes import PIN, PRINT, SCENES, Scene

HERE = Path(__file__).resolve().parent


class Failed(Exception):
    """Why a scene can't be recorded."""


def begin(command, log, **options):
    """Begins a program, whose words go to a log."""
    with open(log, "ab") as output:
        return subprocess.Popen(command, stdout=output, stderr=output, stdin=subprocess.DEVNULL, **options)


def end(program):
    """Ends a program as a terminal does, and waits for it."""
    program.send_signal(signal.SIGINT)
    try:
        program.wait(timeout=10)
    except subprocess.TimeoutExpired:
        program.kill()
        program.wait()


@contextlib.contextmanager
def running(command, log, **options):
    """Runs a program while something is done, also if that fails."""
    program = begin(command, log, **options)
    try:
        yield
    finally:
        end(program)


def wait_for(text, log):
    """Waits until a log has a text."""
    for _ in range(100):
        if Path(log).exists() and text in Path(log).read_text(errors="replace"):
            return
        time.sleep(0.1)
    raise Failed(f"{log} never said {text!r}: {Path(log).read_text(errors='replace')}")


def make_site():
    """The files that servers send, and their certificate."""
    Path("www").mkdir()
    Path("www/small").write_bytes(b"hello\n")
    Path("www/large").write_bytes(b"a" * 20_000)
    Path("www/page.html").write_text('<!doctype html><title>a page</title><link rel="icon" href="small"><p>hello\n')
    certificate = "req -x509 -newkey ec -pkeyopt ec_paramgen_curve:prime256v1 -nodes -days 3650 -subj /CN=localhost"
    names = ["-addext", "subjectAltName=DNS:localhost", "-keyout", "key.pem", "-out", "cert.pem"]
    subprocess.run(["openssl", *certificate.split(), *names], check=True, stderr=subprocess.DEVNULL)
    Path("both.pem").write_text(Path("cert.pem").read_text() + Path("key.pem").read_text())


def output(command, data=None):
    """What a command prints, as bytes."""
    return subprocess.run(command.split(), check=True, input=data, stdout=subprocess.PIPE).stdout


def filled(text):
    """A text with what names the certificate: its fingerprint, and the hash of its key in Base64."""
    if PIN in text:
        key = output("openssl pkey -pubin -outform der", output("openssl x509 -in cert.pem -noout -pubkey"))
        text = text.replace(PIN, base64.b64encode(hashlib.sha256(key).digest()).decode())
    if PRINT in text:
        fingerprint = output("openssl x509 -in cert.pem -noout -fingerprint -sha256").decode().strip()
        text = text.replace(PRINT, fingerprint.partition("=")[2])
    return text


def play(scene: Scene):
    """Runs a scene's programs in the present folder and network, and leaves `capture` and `keys` there."""
    subprocess.run(["ip", "link", "set", "lo", "up"], check=True)
    make_site()
    for name, text in scene.files.items():
        Path(name).parent.mkdir(exist_ok=True)
        Path(name).write_text(filled(text))
    for name, size in scene.sizes.items():
        Path("www", name).write_bytes(b"a" * size)
    with running(["dumpcap", "-q", *scene.capture, "-f", scene.only, "-w", "capture"], "dumpcap.log"):
        wait_for("File:", "dumpcap.log")
        with contextlib.ExitStack() as programs:
            for helper in scene.helpers:
                programs.enter_context(running(helper, "helpers.log"))
            # Both sides' secrets are in the client's log.
            own = dict(os.environ, XDG_DATA_HOME=".", XDG_CONFIG_HOME=".")
            programs.enter_context(running(scene.server, "server.log", env=own))
            time.sleep(scene.patience)
            own = dict(os.environ, HOME=str(Path.cwd()), SSLKEYLOGFILE=str(Path("keys").resolve()))
            for client in scene.clients:
                ask(scene, [filled(word) for word in client], own)
                time.sleep(0.3)
        time.sleep(0.5)


def ask(scene, client, own):
    """Runs a client until it ends."""
    program = begin(client, "client.log", env=own)
    try:
        status = program.wait(timeout=scene.limit)
    except subprocess.TimeoutExpired:
        program.kill()
        raise Failed(f"{client[0]} doesn't end") from None
    if (status == 0) != scene.succeeds:
        raise Failed(f"{client[0]} ended with status {status}: {Path('client.log').read_text(errors='replace')}")


def finish(name, scene, folder):
    """Moves what a scene left to a folder, and describes it."""
    capture = Path("capture")
    if scene.secrets_inside:
        subprocess.run(["editcap", "--inject-secrets", "tls,keys", "capture", "whole"], check=True)
        capture = Path("whole")
    kind = "pcap" if "-P" in scene.capture else "pcapng"
    path = folder / f"{name}.{kind}"
    data = capture.read_bytes()
    if scene.compressed:
        path = folder / f"{name}.{kind}.gz"
        data = gzip.compress(data, mtime=0)
    path.write_bytes(data)
    if not scene.secrets_inside:
        shutil.copy("keys", folder / f"{name}.keys")
    describe.write(path, scene)


def record(name, folder):
    """Records a scene; it is skipped if a program isn't there."""
    scene = SCENES[name]
    missing = [program for program in scene.programs() if shutil.which(program) is None]
    if missing:
        print(f"{name}: skipped, {', '.join(missing)} isn't installed")
        return True
    with tempfile.TemporaryDirectory() as work:
        inside = ["unshare", "--map-root-user", "--net", sys.executable, "-B", __file__, "--inside", name]
        if subprocess.run(inside, cwd=work, check=False).returncode != 0:
            return False
        os.chdir(work)
        finish(name, scene, folder)
        os.chdir(folder)
    print(f"{name}: {sum(path.stat().st_size for path in folder.glob(name + '.pcap*'))} bytes")
    return True


def main(arguments):
    if arguments[:1] == ["--inside"]:
        try:
            play(SCENES[arguments[1]])
        except Failed as what:
            sys.exit(f"{arguments[1]}: {what}")
        return 0
    if not arguments or any(name not in SCENES for name in arguments[1:]):
        print(f"usage: record.py FOLDER [SCENE ..], of {' '.join(SCENES)}", file=sys.stderr)
        return 2
    folder = Path(arguments[0]).resolve()
    folder.mkdir(parents=True, exist_ok=True)
    os.environ["PATH"] += ":/usr/sbin:/sbin"
    results = [record(name, folder) for name in arguments[1:] or SCENES]
    return 0 if all(results) else 1


if __name__ == "__main__":
    sys.exit(main(sys.argv[1:]))
