# SPDX-License-Identifier: Apache-2.0 OR MIT
"""The statuses of the library, by name."""
import enum


class Status(enum.IntEnum):
    """The statuses of cadence.h."""

    OK = 0
    NO_CLIENT = 1
    NO_MEMORY = 2
    FULL = 3
    INVALID = 4
    NOT_UTF8 = 5
    NO_PACKET = 6
    TOO_SMALL = 7
    SEPARATOR = 8
    VARIABLE = 9
    UNFIT_NAME = 10
    UNFIT_HOST = 11
    UNFIT_KEY = 12
    UNFIT_SOURCE = 13
    UNFIT_TAGS = 14
    UNFIT_CONTAINER = 15
    UNFIT_MESSAGE = 16


class StatusError(ValueError):
    """The library refused a call and returned `status`. The client is as it was before the call."""

    def __init__(self, status: int, text: str) -> None:
        super().__init__(status, text)
        self.status = Status(status)

    def __str__(self) -> str:
        return str(self.args[1])
