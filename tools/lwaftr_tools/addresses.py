"""Addresses from texts and to texts, faster than `ipaddress` does it."""
import functools
import ipaddress
import socket


@functools.lru_cache(maxsize=1 << 8)
def tunnel(text):
    """The address of a router, which stands in each softwire of a file."""
    return ipv6(text)


def ipv6(text):
    """The address of a text of RFC 4291, section 2.2, without a zone or a prefix length."""
    return ipaddress.IPv6Address(packed6(text))


def packed6(text):
    """The bytes of an address, by its text as `ipv6` reads it."""
    try:
        return socket.inet_pton(socket.AF_INET6, text)
    except (OSError, ValueError):
        raise ValueError(f"{text!r} is not an IPv6 address") from None


@functools.lru_cache(maxsize=1 << 16)
def ipv4(text):
    """The address of four decimal numbers without leading zeros."""
    try:
        return ipaddress.IPv4Address(socket.inet_pton(socket.AF_INET, text))
    except (OSError, ValueError):
        raise ValueError(f"{text!r} is not an IPv4 address") from None


def ipv4_of(number):
    """The address that has a number."""
    return ipaddress.IPv4Address(number)


def shown(address):
    """The canonical text of an IPv6 address (RFC 5952), never with a dotted part."""
    text = socket.inet_ntop(socket.AF_INET6, address.packed)
    if "." not in text:
        return text
    front, _, dotted = text.rpartition(":")
    a, b, c, d = map(int, dotted.split("."))
    return f"{front}:{a << 8 | b:x}:{c << 8 | d:x}"
