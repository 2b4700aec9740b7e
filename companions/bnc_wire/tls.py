"""TLS: certificates are always checked where this side connects, and where an authority is named."""

import ssl

from bnc_wire.settings import Refused


def _load(context: ssl.SSLContext, certificate: str, authority: str) -> ssl.SSLContext:
    context.minimum_version = ssl.TLSVersion.TLSv1_2
    path = certificate
    try:
        if certificate:
            # (with a pass phrase it would ask at a terminal that isn't there)
            context.load_cert_chain(certificate, password=lambda: "")
        path = authority
        if authority:
            context.load_verify_locations(authority)
    except ssl.SSLError as error:
        raise Refused(f"{path} has to be PEM, a certificate with its key (or an authority's certificate): "
                      f"{error.reason or error}") from None
    except OSError as error:
        raise Refused(f"can't read {path}: {error.strerror}") from None
    return context


def server_context(certificate: str, authority: str = "") -> ssl.SSLContext:
    """For who takes connections in. Where an authority is named, whoever connects has to show a certificate of it."""
    context = _load(ssl.SSLContext(ssl.PROTOCOL_TLS_SERVER), certificate, authority)
    if authority:
        context.verify_mode = ssl.CERT_REQUIRED
    return context


def client_context(authority: str = "", certificate: str = "") -> ssl.SSLContext:
    """For who connects: the certificate of the other end and its name are checked, by the system's authorities or by one."""
    context = ssl.create_default_context() if not authority else ssl.SSLContext(ssl.PROTOCOL_TLS_CLIENT)
    return _load(context, certificate, authority)
