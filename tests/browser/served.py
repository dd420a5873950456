"""What the browser is put in front of: the built program in a folder, and nginx with the lines of examples/deploy."""

import os
import re
import shutil
import socket
import subprocess
import threading

from tests.servers.server import free_port, until_open

# how long anything may take, in seconds
PATIENCE = 20
REPOSITORY = os.path.dirname(os.path.dirname(os.path.dirname(os.path.abspath(__file__))))
SITE = os.path.join(REPOSITORY, "examples", "deploy", "nginx-site.conf")

NGINX = """
{user}
worker_processes 1;
daemon off;
pid {folder}/nginx.pid;
error_log {folder}/error.log;
events {{}}
http {{
  include /etc/nginx/mime.types;
  log_format asked '$request_method $uri $status';
  access_log {folder}/access.log asked;
  client_body_temp_path {folder}/body;
  proxy_temp_path {folder}/proxied;
  fastcgi_temp_path {folder}/unused;
  uwsgi_temp_path {folder}/unused;
  scgi_temp_path {folder}/unused;
  include {folder}/site.conf;
  include {folder}/plain.conf;
}}
"""

# While the file `never` is there a request isn't sent on, and while `lost` is there it is done and its answer dropped.
LOSSES = """
    error_page 418 = @never;
    error_page 419 = @lost;
    recursive_error_pages on;
    location @never {{ return 444; }}
    location @lost {{ error_page 502 = @never; proxy_pass http://127.0.0.1:{dropper}; }}
    location / {{
        if (-f {folder}/never) {{ return 418; }}
        if (-f {folder}/lost) {{ return 419; }}
"""


class Server:
    """The program over a campaign's folder; it may be killed and started again."""

    def __init__(self, program, folder):
        self.program, self.folder, self.port, self.process = program, folder, free_port(), None
        self.start()

    def start(self):
        words = ["serve", "--port", str(self.port), "--workers", "4", "--connections", "4294967295"]
        self.process = subprocess.Popen([self.program, *words], cwd=self.folder)
        until_open(self.port, self.process)

    def kill(self):
        self.process.kill()
        self.process.wait()

    def told(self, *words):
        """What a call of the program prints in this folder; one that asks the journal is made while no server has it."""
        ran = subprocess.run([self.program, *words], cwd=self.folder, stdout=subprocess.PIPE, check=True)
        return ran.stdout.decode()

    def asked(self, path, key, body=None):
        """The answer to a plain request, past nginx and the page: its status and its text."""
        words = ["curl", "-s", "-m", str(PATIENCE), "-w", "\n%{http_code}", "-H", f"X-Campaign-Key: {key}"]
        if body is not None:
            words += ["--data-binary", body]
        ran = subprocess.run([*words, f"http://127.0.0.1:{self.port}{path}"], stdout=subprocess.PIPE, check=True)
        text, status = ran.stdout.decode().rsplit("\n", 1)
        return int(status), text


class Dropper(threading.Thread):
    """Hands requests to the server, and drops the answers: the command is done, and who sent it hears nothing."""

    def __init__(self, server):
        super().__init__(daemon=True)
        self.server, self.dropped = server, 0
        self.door = socket.create_server(("127.0.0.1", 0))
        self.port = self.door.getsockname()[1]
        self.start()

    def run(self):
        while True:
            link, _ = self.door.accept()
            with link, socket.create_connection(("127.0.0.1", self.server.port), timeout=PATIENCE) as other:
                other.sendall(request_of(link))
                while other.recv(65536):
                    pass
                self.dropped += 1


def request_of(link):
    text = b""
    while b"\r\n\r\n" not in text:
        text += link.recv(65536)
    length = int(re.search(rb"(?i)content-length: (\d+)\r\n", text).group(1))
    while len(text) < text.index(b"\r\n\r\n") + 4 + length:
        text += link.recv(65536)
    return text


class Front:
    """nginx with the example's site; on a second port the same site without encryption, which can lose answers."""

    def __init__(self, folder, server):
        self.folder, self.server, self.dropper = folder, server, Dropper(server)
        self.web, self.documents = os.path.join(folder, "web"), os.path.join(folder, "documents")
        self.redirect, self.encrypted, self.plain = free_port(), free_port(), free_port()
        shutil.copytree(os.path.join(REPOSITORY, "web"), self.web, ignore=shutil.ignore_patterns("settings.json"))
        os.makedirs(self.documents, exist_ok=True)
        self.certificate()
        self.configure()
        words = ["nginx", "-e", os.path.join(folder, "error.log"), "-c", os.path.join(folder, "nginx.conf")]
        self.process = subprocess.Popen(words)
        until_open(self.plain, self.process)
        self.address = f"http://127.0.0.1:{self.plain}"

    def certificate(self):
        words = ["openssl", "req", "-x509", "-newkey", "rsa:2048", "-nodes", "-days", "2", "-subj", "/CN=127.0.0.1"]
        files = ["-keyout", os.path.join(self.folder, "key.pem"), "-out", os.path.join(self.folder, "cert.pem")]
        subprocess.run(words + files, check=True, stderr=subprocess.DEVNULL)

    def configure(self):
        with open(SITE) as file:
            site = file.read()
        # the example with ports, folders and a certificate of this machine, and nothing else
        for old, new in [
            ("listen 80;", f"listen 127.0.0.1:{self.redirect};"),
            ("listen 443 ssl http2;", f"listen 127.0.0.1:{self.encrypted} ssl http2;"),
            ("/etc/letsencrypt/live/campaign.example.org/fullchain.pem", f"{self.folder}/cert.pem"),
            ("/etc/letsencrypt/live/campaign.example.org/privkey.pem", f"{self.folder}/key.pem"),
            ("/srv/campaign/web/", f"{self.web}/"),
            ("/srv/campaign/documents/", f"{self.documents}/"),
            ("http://127.0.0.1:7000", f"http://127.0.0.1:{self.server.port}"),
        ]:
            site = replaced(site, old, new)
        self.write("site.conf", site)
        # its encrypted site once more, without encryption
        plain = site[site.rindex("\nserver {") :]
        plain = replaced(plain, f"listen 127.0.0.1:{self.encrypted} ssl http2;", f"listen 127.0.0.1:{self.plain};")
        plain = re.sub(r"\n *ssl_.*", "", plain)
        losses = LOSSES.format(folder=self.folder, dropper=self.dropper.port)
        self.write("plain.conf", replaced(plain, "\n    location / {\n", losses))
        # (nginx's workers aren't root, and the folder is root's alone)
        user = "user root;" if os.getuid() == 0 else ""
        self.write("nginx.conf", NGINX.format(user=user, folder=self.folder))

    def write(self, name, text):
        with open(os.path.join(self.folder, name), "w") as file:
            file.write(text)

    def settings(self, *words):
        """Writes settings.json as the page's script does, and answers its text."""
        script = os.path.join(self.web, "make-settings")
        ran = subprocess.run(["/usr/bin/python3", script, *words], stdout=subprocess.PIPE, check=True)
        self.write(os.path.join("web", "settings.json"), ran.stdout.decode())
        return ran.stdout.decode()

    def loses(self, how, on):
        """Whether requests are `never` sent on, or their answers `lost`."""
        path = os.path.join(self.folder, how)
        if on:
            open(path, "w").close()
        elif os.path.exists(path):
            os.remove(path)

    def asked_since(self, place=0):
        """The requests that nginx was sent, from a place in its log on: method, path and status of each."""
        # (its one worker writes a line behind the answer, and before it answers this request)
        words = ["curl", "-s", "-m", str(PATIENCE), f"{self.address}/web/"]
        subprocess.run(words, stdout=subprocess.DEVNULL, check=True)
        with open(os.path.join(self.folder, "access.log")) as file:
            return [tuple(line.split()) for line in file][place:]

    def end(self):
        self.process.terminate()
        self.process.wait()


def replaced(text, old, new):
    if text.count(old) != 1:
        raise AssertionError(f"examples/deploy has {old!r} {text.count(old)} times")
    return text.replace(old, new)
