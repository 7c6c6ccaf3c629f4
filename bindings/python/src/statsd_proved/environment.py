# SPDX-License-Identifier: Apache-2.0 OR MIT
"""What the variables of the environment say about a client."""
from __future__ import annotations

import os
from collections.abc import Mapping
from typing import Union, get_args

from . import _core
from .metrics import Cardinality

Tag = Union[str, tuple[str, str]]
Variables = Mapping[bytes, bytes]

DEFAULT_PORT = 8125
UNIX = "unix://"
NOWHERE = "nowhere://"

# the names of the variables, in the order of cadence.h
_NAMES = (b"DD_DOGSTATSD_URL", b"DD_DOGSTATSD_SOCKET", b"DD_AGENT_HOST", b"DD_DOGSTATSD_PORT", b"STATSD_HOST", b"STATSD_PORT",
          b"DD_ENV", b"DD_SERVICE", b"DD_VERSION", b"DD_TAGS", b"DD_ENTITY_ID", b"DD_DOGSTATSD_DISABLE", b"STATSD_ENABLED",
          b"STATSD_MAXUDPSIZE", b"STATSD_PREFIX", b"DD_ORIGIN_DETECTION_ENABLED", b"STATSD_IPV6",
          b"DD_EXTERNAL_ENV", b"DD_CARDINALITY", b"DATADOG_CARDINALITY")
_ORIGIN = b"DD_ORIGIN_DETECTION_ENABLED"

# the cardinalities, in the order of their numbers in cadence.h
_CARDINALITIES: tuple[Cardinality | None, ...] = (None, *get_args(Cardinality))

# the number of the control groups of the host
_HOST = 4026531835


class VariableError(ValueError):
    """A variable of the environment can't be used. `variable` is its name, and the text says what it has to be."""

    def __init__(self, variable: str, text: str) -> None:
        super().__init__(variable, text)
        self.variable = variable

    def __str__(self) -> str:
        return str(self.args[1])


def _values(variables: Variables) -> tuple[bytes, ...]:
    return tuple(variables.get(name, b"") for name in _NAMES)


def address(variables: Variables) -> tuple[str, int, int, bool]:
    """Returns the host, which is `unix://PATH` for a Unix socket, or NOWHERE if nothing is sent, the port, how many bytes a
    packet has, and whether only addresses of IPv6 are looked up."""
    text, port, size, ipv6 = _core.destination(*_values(variables))
    return (text, port, size, ipv6) if port else (UNIX + text if text else NOWHERE, DEFAULT_PORT, size, ipv6)


def prefix(variables: Variables) -> str:
    """Returns the prefix, which is empty by default."""
    return _core.environment_prefix(*_values(variables))[0]


def tags(variables: Variables) -> list[Tag]:
    """Returns the tags, in their order: pairs of a key and a text, and texts."""
    text, *_ = _core.environment_tags(*_values(variables))
    return [_tag(tag) for tag in text.removeprefix("|#").split(",")] if text else []


def container(variables: Variables, is_wanted: bool | None = None) -> str | None:
    """Returns the container of the process if a variable says that it is the default one, or `is_wanted` in its place."""
    variables = _switched(variables, is_wanted)
    if not variables.get(_ORIGIN):
        return None
    groups = _groups()
    return _core.environment_container(groups, _inode(groups), *_values(variables))[0] or None


def external_data(variables: Variables, is_wanted: bool | None = None) -> str | None:
    """Returns the external data of the process if a variable says that they are the default ones, or `is_wanted` in its
    place."""
    return _core.environment_external(*_values(_switched(variables, is_wanted)))[0] or None


def cardinality(variables: Variables) -> Cardinality | None:
    """Returns the default cardinality."""
    return _CARDINALITIES[_core.environment_cardinality(*_values(variables))]


def _switched(variables: Variables, is_wanted: bool | None) -> Variables:
    """Returns the variables, with `is_wanted` in place of the one for the container and the external data of the process."""
    return variables if is_wanted is None else {**variables, _ORIGIN: b"1" if is_wanted else b"0"}


def _groups() -> bytes:
    """Returns what the system says of the control groups of the process."""
    try:
        with open("/proc/self/cgroup", "rb") as file:
            return file.read()
    except OSError:
        return b""


def _inode(groups: bytes) -> int:
    """Returns the number of the directory of the control group of version 2, or 0 if the process is in those of the host."""
    try:
        if os.stat("/proc/self/ns/cgroup").st_ino == _HOST:
            return 0
        own = [line[3:] for line in groups.split(b"\n") if line.startswith(b"0::")]
        return os.stat(b"/sys/fs/cgroup" + own[0]).st_ino if own else 0
    except OSError:
        return 0


def _tag(text: str) -> Tag:
    key, colon, value = text.partition(":")
    return (key, value) if colon else text
