"""nginx and Caddy in front of a desk, for tests: the configuration of each, and how it is run. All of it listens on 127.0.0.1
alone."""

import contextlib
import os
import re
import socket
import ssl
import subprocess
import time

from support import TOP
from support.cases import path_of
from support.fronts import free_port, make_certificate
from support.programs import SECONDS, expect

# what stands around a site: only where its files lie, and that nginx does not become a daemon
NGINX = """daemon off;
pid FOLDER/nginx.pid;
events {
}
http {
    access_log off;
    client_body_temp_path FOLDER/bodies;
    proxy_temp_path FOLDER/answers;
    fastcgi_temp_path FOLDER/others;
    uwsgi_temp_path FOLDER/others;
    scgi_temp_path FOLDER/others;
SITE}
"""
CADDY = """{
    admin off
    default_bind 127.0.0.1
    auto_https disable_redirects
    skip_install_trust
}
SITE"""

# two sites: one keeps its connections to the desk, the other opens one for each message
KEPT = """upstream desk {
    server DESK;
    keepalive 64;
}
server {
    listen ADDRESS;
    location / {
        proxy_pass http://desk;
        proxy_http_version 1.1;
        proxy_set_header Connection "";
    }
}
"""
ONE_EACH = """server {
    listen ADDRESS;
    location / {
        proxy_pass http://DESK;
        proxy_http_version 1.1;
        proxy_set_header Connection "";
    }
}
"""
PASSED = """http://:PORT {
    reverse_proxy DESK
}
"""

# where Caddy keeps the authority that it makes for itself
AUTHORITY = "caddy/pki/authorities/local/root.crt"


def told(path: str) -> str:
    """What the documents tell an operator to write to this path."""
    with open(os.path.join(TOP, "docs", "OPERATING.md"), encoding="utf-8") as file:
        found = re.findall(f"^cat > {re.escape(path)} <<'?END'?\n(.*?)^END$", file.read(), re.DOTALL | re.MULTILINE)
    expect(len(found) == 1, f"the documents tell {len(found)} times what is in {path}")
    return found[0]


def output_of(*words: str) -> str:
    return subprocess.run(words, check=True, capture_output=True, text=True, timeout=SECONDS).stdout.strip()


def told_nginx(folder: str, user: str) -> str:
    """The site of nginx that the documents show, with a user whose password is his name."""
    make_certificate(folder)
    with open(os.path.join(folder, "users"), "w", encoding="ascii") as file:
        file.write(f"{user}:{output_of('openssl', 'passwd', '-6', user)}\n")
    site = told("/etc/nginx/conf.d/shop.conf")
    for old, new in [("shop.pem", "certificate"), ("shop.key", "key"), ("shop.users", "users")]:
        site = site.replace(f"/etc/nginx/{old}", os.path.join(folder, new))
    return site.replace("127.0.0.1:8080", "DESK").replace("443", "ADDRESS")


def told_caddy(user: str) -> str:
    """The site of Caddy that the documents show, with the same user."""
    site = told("/etc/caddy/Caddyfile").replace("127.0.0.1:8080", "DESK").replace("localhost", "https://localhost:PORT")
    return site.replace("$(caddy hash-password)", output_of(str(path_of("caddy")), "hash-password", "--plaintext", user))


class Proxy:
    """nginx or Caddy, with a site before a desk's port. In the site ADDRESS is where it listens, PORT its port, and DESK where
    the desk listens."""

    def __init__(self, name: str, folder: str, site: str, desk_port: int):
        self.port = free_port()
        self.folder, self.log_path = folder, os.path.join(folder, "proxy.log")
        # nginx works as another user where root starts it
        os.chmod(folder, 0o755)
        site = site.replace("ADDRESS", f"127.0.0.1:{self.port}").replace("PORT", str(self.port))
        site = site.replace("DESK", f"127.0.0.1:{desk_port}")
        path = os.path.join(folder, "proxy.conf")
        with open(path, "w", encoding="ascii") as file:
            file.write((NGINX if name == "nginx" else CADDY).replace("SITE", site).replace("FOLDER", folder))
        words = ["-e", "stderr", "-c", path] if name == "nginx" else ["run", "--adapter", "caddyfile", "--config", path]
        self.words = [str(path_of(name)), *words]

    def __enter__(self) -> "Proxy":
        homes = {name: self.folder for name in ["HOME", "XDG_CONFIG_HOME", "XDG_DATA_HOME"]}
        with open(self.log_path, "w", encoding="ascii") as log:
            self.process = subprocess.Popen(
                self.words, env={**os.environ, **homes}, stdin=subprocess.DEVNULL, stdout=log, stderr=subprocess.STDOUT
            )
        try:
            self.wait()
        except BaseException:
            self.end()
            raise
        return self

    def __exit__(self, *_: object) -> None:
        self.end()

    def wait(self) -> None:
        """Waits until it listens."""
        last = time.monotonic() + SECONDS
        while self.process.poll() is None and time.monotonic() < last:
            try:
                socket.create_connection(("127.0.0.1", self.port), SECONDS).close()
                return
            except ConnectionRefusedError:
                time.sleep(0.05)
        with open(self.log_path, encoding="utf-8") as log:
            expect(False, f"it does not listen: {log.read()}")

    def context(self, authority: str) -> ssl.SSLContext:
        """A context that trusts the authority whose certificate lies in the folder. Caddy listens before it has made its
        authority and its certificate."""
        path = os.path.join(self.folder, authority)
        last = time.monotonic() + SECONDS
        while time.monotonic() < last:
            with contextlib.suppress(OSError):
                context = ssl.create_default_context(cafile=path)
                with socket.create_connection(("127.0.0.1", self.port), SECONDS) as plain:
                    context.wrap_socket(plain, server_hostname="localhost").close()
                return context
            time.sleep(0.05)
        raise AssertionError(f"no TLS in {SECONDS} s")

    def end(self) -> None:
        self.process.terminate()
        self.process.wait()
