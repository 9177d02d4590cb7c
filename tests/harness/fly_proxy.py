"""nginx as it stands before a page that only shows: packaging/fly-floor/nginx.conf in a folder of its own."""
import base64
import shutil
import socket
import ssl
import subprocess
import time

import serving
from checking import check

SITE = serving.ROOT / "packaging" / "fly-floor" / "nginx.conf"
NAME, USER, PASS = "fly.example", "anna", "correct horse"
AROUND = """daemon off;
master_process off;
error_log {folder}/error.log;
pid {folder}/nginx.pid;
events {{ worker_connections 256; }}
http {{
    client_body_temp_path {folder}/body;
    proxy_temp_path {folder}/proxy;
    fastcgi_temp_path {folder}/fastcgi;
    uwsgi_temp_path {folder}/uwsgi;
    scgi_temp_path {folder}/scgi;
    include {folder}/site.conf;
}}
"""


def missing():
    """The tools that are not installed."""
    return [tool for tool in ("nginx", "openssl") if not shutil.which(tool)]


def free_tcp():
    with socket.socket() as wire:
        wire.bind(("127.0.0.1", 0))
        return wire.getsockname()[1]


def authorization(user=USER, word=PASS):
    return "Basic " + base64.b64encode(f"{user}:{word}".encode()).decode()


class Proxy:
    """nginx at a port of its own before the page at `http`."""

    def __init__(self, folder, port, http):
        self.folder, self.port = folder, port
        folder.mkdir()
        self.make_certificate()
        hashed = subprocess.run(["openssl", "passwd", "-6", PASS], capture_output=True, check=True).stdout.decode()
        (folder / "users").write_text(f"{USER}:{hashed}")
        site = SITE.read_text().replace("/etc/nginx/fly-floor.", f"{folder}/")
        site = site.replace("8443", str(port)).replace("8081", str(http))
        (folder / "site.conf").write_text(site)
        (folder / "nginx.conf").write_text(AROUND.format(folder=folder))
        words = ["nginx", "-p", str(folder), "-c", str(folder / "nginx.conf")]
        said = subprocess.run([*words, "-t"], capture_output=True, check=False).stderr.decode()
        check("nginx takes the configuration", "test is successful" in said)
        self.child = subprocess.Popen(words, stderr=subprocess.DEVNULL)
        self.context = ssl.create_default_context(cafile=str(folder / "crt"))

    def make_certificate(self):
        subprocess.run(["openssl", "req", "-x509", "-newkey", "rsa:2048", "-nodes", "-days", "2",
                        "-subj", f"/CN={NAME}", "-addext", f"subjectAltName=DNS:{NAME}",
                        "-keyout", str(self.folder / "key"), "-out", str(self.folder / "crt")],
                       check=True, capture_output=True)

    def is_ready(self, seconds=10.0):
        end = time.monotonic() + seconds
        while time.monotonic() < end:
            try:
                socket.create_connection(("127.0.0.1", self.port), timeout=1).close()
                return True
            except OSError:
                time.sleep(0.05)
        return False

    def send(self, data, seconds=5.0):
        """What is answered to these bytes over TLS."""
        with socket.create_connection(("127.0.0.1", self.port), timeout=seconds) as bare:
            with self.context.wrap_socket(bare, server_hostname=NAME) as wire:
                wire.sendall(data)
                got = b""
                try:
                    while piece := wire.recv(65536):
                        got += piece
                except (ssl.SSLError, ConnectionResetError):
                    pass
                return got

    def ask(self, target="/", method="GET", body=b"", knows=True, **fields):
        """A request as a browser of the house makes it, but for what is said otherwise; none leaves a field out."""
        head = {"Host": f"{NAME}:{self.port}", "Connection": "close",
                "Authorization": authorization() if knows else None, **fields}
        if body:
            head["Content_Length"] = len(body)
        lines = [f"{name.replace('_', '-')}: {value}" for name, value in head.items() if value is not None]
        return self.send("\r\n".join([f"{method} {target} HTTP/1.1", *lines, "", ""]).encode() + body)

    def end(self):
        self.child.terminate()
        self.child.wait()
