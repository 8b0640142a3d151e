"""A client that speaks HTTP/2 with a front, good or bad, by python3-h2."""

import importlib.util
import os
import socket
import ssl
import time
from types import TracebackType
from typing import Any

from support.fronts import Haproxy

# a part of a head: a name and a value
Headers = list[tuple[str, str]]


def is_there() -> bool:
    return importlib.util.find_spec("h2") is not None


class Http2:
    """A client that speaks HTTP/2 and sends what it is given, good or bad. With a window of 0 it may be sent no body."""

    def __init__(self, front: Haproxy, window: int | None = None):
        from h2.config import H2Configuration
        from h2.connection import H2Connection
        from h2.settings import SettingCodes

        context = ssl.create_default_context(cafile=os.path.join(front.folder, "certificate"))
        context.set_alpn_protocols(["h2"])
        plain = socket.socket()
        if window is not None:
            plain.setsockopt(socket.SOL_SOCKET, socket.SO_RCVBUF, 4_096)
        plain.connect(("127.0.0.1", front.port))
        self.socket = context.wrap_socket(plain, server_hostname="localhost")
        self.is_spoken = self.socket.selected_alpn_protocol() == "h2"
        names = ["validate_outbound_headers", "normalize_outbound_headers", "validate_inbound_headers"]
        free: dict[str, Any] = dict.fromkeys(names, False)
        self.state = H2Connection(H2Configuration(client_side=True, header_encoding="latin-1", **free))
        self.state.initiate_connection()
        if window is not None:
            self.state.update_settings({SettingCodes.INITIAL_WINDOW_SIZE: window})
        self.flush()

    def __enter__(self) -> "Http2":
        return self

    def __exit__(self, kind: type[BaseException] | None, fault: BaseException | None, trace: TracebackType | None) -> None:
        self.socket.close()

    def flush(self) -> None:
        try:
            self.socket.sendall(self.state.data_to_send())
        except OSError:
            pass

    def send(self, headers: Headers, body: bytes | None, is_ended: bool = True, trailers: Headers | None = None) -> int:
        """Sends a message at once: its head, its body if it has one, and its end unless `is_ended` is false. Returns its
        stream."""
        stream = self.state.get_next_available_stream_id()
        self.state.send_headers(stream, headers, end_stream=is_ended and body is None and trailers is None)
        if body is not None:
            self.state.send_data(stream, body, end_stream=is_ended and trailers is None)
        if trailers is not None:
            self.state.send_headers(stream, trailers, end_stream=True)
        self.flush()
        return stream

    def answer(self, stream: int, seconds: float = 1.0) -> tuple[str, str]:
        """The status and the body that answer a stream, as far as they come; no status where the stream is reset or all is
        closed."""
        from h2 import events
        from h2.exceptions import ProtocolError

        status, body, end = "", b"", time.time() + seconds
        while time.time() < end:
            self.socket.settimeout(max(0.01, end - time.time()))
            try:
                part = self.socket.recv(65_536)
                found = self.state.receive_data(part)
            except (OSError, ProtocolError):
                break
            if not part:
                break
            for event in found:
                if getattr(event, "stream_id", stream) != stream:
                    continue
                if isinstance(event, events.ResponseReceived):
                    status = dict(event.headers or [])[":status"]
                elif isinstance(event, events.DataReceived):
                    body += event.data or b""
                elif isinstance(event, (events.StreamEnded, events.StreamReset, events.ConnectionTerminated)):
                    end = 0
            self.flush()
        return status, body.decode("latin-1")
