"""A real nginx or Caddy over a desk, with its configuration of deploy/, a self-signed certificate and a port of this
machine."""
import contextlib
import os
import re
import shutil
import socket
import subprocess
import time

import kit
from lib import desks

DEPLOY = f"{kit.TOP}/deploy"
NGINX = """\
# nginx as a check runs it
daemon off;
worker_processes 2;
{user}pid {folder}/nginx.pid;
error_log {folder}/error.log;
events {{ }}
http {{
    access_log {folder}/access.log;
{temporary}
    include {folder}/desk.conf;
}}
"""
CADDY = """\
# Caddy as a check runs it
{{
	admin off
	auto_https disable_redirects
	skip_install_trust
	storage file_system {folder}/storage
	log {{
		output file {folder}/error.log
	}}
}}
import {folder}/desk.conf
"""
TEMPORARY = ("client_body", "proxy", "fastcgi", "uwsgi", "scgi")
PASSWORD = "changeit"
# The first version of Caddy whose buffers have newer names, and give a body in chunks its length.
NEWER = (2, 7)


def filled(text, values):
    """Returns a configuration with other values in the place of its own. Each of its own must stand in it once."""
    for own, other in values.items():
        if text.count(own) != 1:
            raise desks.Broken(f"the configuration has {own!r} {text.count(own)} times")
        text = text.replace(own, other)
    return text


def run(*words, env=None):
    """Runs a tool, which must end well."""
    ran = subprocess.run(words, env=env, capture_output=True, text=True, check=False)
    if ran.returncode:
        raise desks.Broken(f"{words[0]} said {(ran.stderr or ran.stdout).strip()}")


class Proxy:
    """A proxy, which listens once its `with` has begun and ends with it, over a desk's port. It waits this many seconds
    for a reply of the desk. Texts of its configuration may be edited."""

    NAME, DEPLOYED, CERTIFICATE = None, None, "/etc/desk/certificate"

    def __init__(self, folder, to, seconds=desks.SECONDS, edits=None):
        self.folder, self.port, self.process = f"{folder}/{self.NAME}", desks.free_port(), None
        self.certificate, self.key = f"{self.folder}/certificate.pem", f"{self.folder}/certificate.key"
        self.url, self.edits = f"https://127.0.0.1:{self.port}", edits or {}
        self.values = {
            f"{self.CERTIFICATE}.pem": self.certificate,
            f"{self.CERTIFICATE}.key": self.key,
            **self.own_values(to, seconds),
        }

    @classmethod
    def installed(cls):
        """Returns where the proxy is installed, or nothing."""
        return desks.installed(cls.NAME)

    @classmethod
    def version(cls):
        """Returns the line in which the proxy names its version."""
        if not cls.installed():
            raise desks.Broken(f"{cls.NAME} is not installed: nothing was tried")
        ran = subprocess.run([cls.installed(), *cls.ASKS], capture_output=True, text=True, check=False)
        return f"{cls.NAME}: {(ran.stdout + ran.stderr).strip()}"

    @classmethod
    def deployed(cls):
        """Returns the text of the configuration of deploy/."""
        return desks.content(f"{DEPLOY}/{cls.DEPLOYED}").decode()

    def own_values(self, to, seconds):
        """Returns what stands in the place of which lines, beside the certificate's files."""
        raise NotImplementedError

    def whole(self):
        """Returns the text of the configuration that has the one of deploy/ in it."""
        raise NotImplementedError

    def words(self, *what):
        """Returns the words by which the proxy runs, or does something else."""
        raise NotImplementedError

    def texts(self):
        """Returns the text of each file of the configuration."""
        return {"whole.conf": self.whole(), "desk.conf": filled(filled(self.deployed(), self.edits), self.values)}

    def certify(self):
        """Makes the certificate and its key, good for this machine."""
        names = "subjectAltName=IP:127.0.0.1,DNS:localhost"
        curve = ("-newkey", "ec", "-pkeyopt", "ec_paramgen_curve:prime256v1", "-nodes", "-days", "2")
        files = ("-keyout", self.key, "-out", self.certificate)
        run("openssl", "req", "-x509", *curve, *files, "-subj", "/CN=localhost", "-addext", names)

    def takes_chunks(self):
        """Returns whether the proxy gives a body in chunks its length, without which the desk takes none."""
        return True

    def env(self):
        """Returns the environment in which the proxy runs."""
        return dict(os.environ)

    def __enter__(self):
        os.makedirs(self.folder)
        self.certify()
        for name, text in self.texts().items():
            with open(f"{self.folder}/{name}", "w", encoding="utf-8") as it:
                it.write(text)
        run(*self.words(*self.TESTS), env=self.env())
        quiet = {"stdout": subprocess.DEVNULL, "stderr": subprocess.DEVNULL}
        self.process = subprocess.Popen(self.words(*self.RUNS), env=self.env(), **quiet)
        self.until_it_listens()
        return self

    def __exit__(self, *_):
        self.process.terminate()
        self.process.wait()

    def until_it_listens(self):
        """Waits until connections can be made."""
        for _ in range(desks.SECONDS * 10):
            with contextlib.suppress(OSError), socket.create_connection(("127.0.0.1", self.port)):
                return
            if self.process.poll() is not None:
                break
            time.sleep(0.1)
        self.process.kill()
        self.process.wait()
        raise desks.Broken(f"{self.NAME} does not listen: {desks.content(f'{self.folder}/error.log').decode().strip()}")

    def trusted(self):
        """Returns the environment in which each client trusts the certificate."""
        store, settings = f"{self.folder}/trusted.p12", f"{self.folder}/wgetrc"
        with open(settings, "w", encoding="utf-8") as it:
            it.write(f"ca_certificate = {self.certificate}\n")
        if shutil.which("keytool"):
            words = ("-importcert", "-noprompt", "-alias", "desk", "-file", self.certificate, "-keystore", store)
            run("keytool", *words, "-storetype", "PKCS12", "-storepass", PASSWORD)
        java = f"-Djavax.net.ssl.trustStore={store} -Djavax.net.ssl.trustStorePassword={PASSWORD}"
        by_file = dict.fromkeys(("CURL_CA_BUNDLE", "SSL_CERT_FILE", "NODE_EXTRA_CA_CERTS"), self.certificate)
        return {**by_file, "WGETRC": settings, "JAVA_TOOL_OPTIONS": java}


class Nginx(Proxy):
    """nginx over a desk's port."""

    NAME, DEPLOYED, ASKS, TESTS, RUNS = "nginx", "nginx.conf", ("-v",), ("-t", "-q"), ()

    def own_values(self, to, seconds):
        return {
            "listen 443 ssl;": f"listen 127.0.0.1:{self.port} ssl;",
            "desk.example": "localhost",
            "http://127.0.0.1:8080": f"http://127.0.0.1:{to}",
            "proxy_read_timeout 60s;": f"proxy_read_timeout {seconds}s;",
        }

    def whole(self):
        own = "user root;\n" if os.geteuid() == 0 else ""
        temporary = "\n".join(f"    {it}_temp_path {self.folder}/{it};" for it in TEMPORARY)
        return NGINX.format(user=own, folder=self.folder, temporary=temporary)

    def words(self, *what):
        return [self.installed(), "-p", self.folder, "-e", f"{self.folder}/error.log", "-c",
                f"{self.folder}/whole.conf", *what]


class Caddy(Proxy):
    """Caddy over a desk's port."""

    NAME, DEPLOYED, ASKS, TESTS, RUNS = "caddy", "Caddyfile", ("version",), ("validate",), ("run",)

    def own_values(self, to, seconds):
        return {
            "\ndesk.example {": f"\n{self.url} {{",
            "127.0.0.1:8080": f"127.0.0.1:{to}",
            "response_header_timeout 60s": f"response_header_timeout {seconds}s",
        }

    def whole(self):
        return CADDY.format(folder=self.folder)

    def words(self, *what):
        return [self.installed(), *what, "--adapter", "caddyfile", "--config", f"{self.folder}/whole.conf"]

    def takes_chunks(self):
        found = re.search(r"(\d+)\.(\d+)", self.version())
        return bool(found) and tuple(map(int, found.groups())) >= NEWER

    def env(self):
        """Returns the environment, which says which names of buffers this version has, and has no home of another."""
        own = dict.fromkeys(("HOME", "XDG_DATA_HOME", "XDG_CONFIG_HOME"), self.folder)
        return {**os.environ, **own, **({"DESK_BUFFERS": "buffers"} if self.takes_chunks() else {})}


class NginxConsole(Nginx):
    """nginx with the operator's console over a desk's port."""

    DEPLOYED, CERTIFICATE = "console-nginx.conf", "/etc/desk/operator"

    def own_values(self, to, seconds):
        return {
            "127.0.0.1:8443": f"127.0.0.1:{self.port}",
            "operator.example": "localhost",
            "@PREFIX@/share/desk": kit.TOP,
            "http://127.0.0.1:8080": f"http://127.0.0.1:{to}",
            "proxy_read_timeout 60s;": f"proxy_read_timeout {seconds}s;",
        }


class CaddyConsole(Caddy):
    """Caddy with the operator's console over a desk's port."""

    DEPLOYED, CERTIFICATE = "console-Caddyfile", "/etc/desk/operator"

    def own_values(self, to, seconds):
        return {
            "\noperator.example:8443 {": f"\n{self.url} {{",
            "@PREFIX@/share/desk": kit.TOP,
            "127.0.0.1:8080": f"127.0.0.1:{to}",
            "response_header_timeout 60s": f"response_header_timeout {seconds}s",
        }


ALL = (Nginx, Caddy)
CONSOLES = (NginxConsole, CaddyConsole)
