"""Texts and documents, as octets."""

from __future__ import annotations

import json
from typing import Any, Dict, Union

Text = Union[str, bytes, bytearray, memoryview]
Document = Union[Text, Dict[str, Any]]


def octets_of(text: Text, what: str) -> bytes:
    """The octets of a text or of what is bytes-like. A lone surrogate, which UTF-8 doesn't have, becomes octets that the library refuses.
    Raises TypeError for anything else, an `int` too."""
    # (of a subclass a method may say another length than its octets have, which the library would read: they are copied)
    if type(text) is bytes:
        return text
    if isinstance(text, str):
        return str.encode(text, "utf-8", "surrogatepass")
    try:
        return bytes(memoryview(text))
    except TypeError:
        raise TypeError(f"{what} has to be str or bytes-like, and not {type(text).__name__}") from None


def document_of(document: Document, what: str) -> bytes:
    """The octets of a document, or of what is written as its JSON text."""
    return json.dumps(document).encode() if isinstance(document, dict) else octets_of(document, what)
