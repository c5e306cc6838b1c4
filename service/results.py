"""What the owner is told of a challenge: its state, its verdict line, the verdict in words, and the result as a signed token.

The token has the claims of an attestation result (EAR). Its status follows from the replies that were put, and from nothing else."""

import base64
import hashlib
import os
import time
from typing import Any

import jwt
from cryptography.hazmat.primitives import serialization
from cryptography.hazmat.primitives.asymmetric import ec

from store import Store

PROFILE = "tag:github.com,2023:veraison/ear"

# Causes that stand before it is known that the blob is under the device's key: anybody may have sent such an answer.
BEFORE_THE_KEY = ("form", "mac")

WORDS = {
    "form": "The bytes in the answer are no blob: from byte {0} on they can't be one.",
    "mac": "The blob isn't sealed under the device's key. Anybody may have sent it.",
    "nonce": "The blob is sealed for another nonce than that of the challenge.",
    "serial": "The blob numbers its windows otherwise than the challenge asks.",
    "operation": "The blob is that of another operation than was asked for.",
    "image": "The device measured another image than the one that is enrolled.",
    "hash": "The returns that the device made aren't those of the path that its blob tells.",
    "critical": "A watched value was changed from outside: cell {0} had to be {1}, and {2} was found.",
}

WORDS_OF_A_REPLAY = {
    "OffCode": "the path leaves the code",
    "BitsEnd": "the run never came to the branch that the path asks for next",
    "TargetsEnd": "the run never came to the indirect call that the path asks for next",
    "BadTarget": "an indirect call went to {2}, which no path of the program calls there",
    "Underflow": "a return has no call that it goes back to",
    "Nested": "the operation begins a second time inside",
    "WrongEnd": "the end of another operation is met",
    "EndInside": "the operation ends inside a call",
    "BitsLeft": "the run took {2} branches that aren't on the path",
    "TargetsLeft": "the run made {2} indirect calls that aren't on the path",
    "PathLimit": "the path is longer than a path may be",
}


def words_of_cause(cause: str) -> str:
    """A cause of docs/FORMATS.md in words."""
    kind, *values = cause.split(" ")
    if kind == "replay":
        return f"At step {values[0]} of the replay " + WORDS_OF_A_REPLAY.get(values[1], values[1]).format(*values) + "."
    return WORDS.get(kind, cause).format(*values)


def told(store: Store, row: dict[str, Any]) -> dict[str, Any]:
    """What is told of a challenge by the store."""
    name = f"{row['script']}.{row['number']}"
    refusals = store.refusals(row["script"], row["number"]) if row["refused"] else []
    under_key = [refusal for refusal in refusals if refusal["kind"] not in BEFORE_THE_KEY]
    if row["accepted"] is not None:
        state, verdict, words = "accepted", "accept", "Accepted: the path is the one that the run executed."
    elif refusals:
        state, cause = "refused" if under_key else "waiting", (under_key or refusals)[0]["cause"]
        verdict, words = f"refuse {cause}", f"Refused: {words_of_cause(cause)}"
    else:
        state, verdict, words = "waiting", None, "No answer has come yet."
    return {
        "challenge": name,
        "device": row["device"],
        "operation": row["operation"],
        "image": row["image"],
        "frame": row["frame"],
        "asked": row["asked"],
        "decided": row["decided"],
        "state": state,
        "verdict": verdict,
        "words": words,
        "refusals": [{key: refusal[key] for key in ("cause", "count", "time")} for refusal in refusals],
    }


def path_of(store: Store, row: dict[str, Any]) -> bytes:
    """The path lines of an accepted challenge; of any other none."""
    return b"" if row["accepted"] is None else store.reply(row["script"], row["place"]).path


STATUS = {"accepted": "affirming", "refused": "contraindicated", "waiting": "none"}


class Signer:
    """Signs results with the store's own key, which is made where there is none."""

    def __init__(self, folder: str) -> None:
        path = os.path.join(folder, "signing.pem")
        if not os.path.exists(path):
            write_secret(path, _new_key())
        with open(path, "rb") as file:
            key = serialization.load_pem_private_key(file.read(), None)
        assert isinstance(key, ec.EllipticCurvePrivateKey)
        self._key = key
        self._public = _public_key(key)

    def keys(self) -> dict[str, Any]:
        """The keys that results are checked with, as a set of JSON Web Keys."""
        return {"keys": [self._public]}

    def result(self, told: dict[str, Any], path: bytes) -> str:
        """The result of a challenge as a token: `ear.status` is affirming where an answer was accepted, contraindicated where none was and one
        under the device's key was refused, and else none."""
        claims: dict[str, Any] = {
            "ear.status": STATUS[told["state"]],
            "oat.challenge": told["challenge"],
            "oat.operation": told["operation"],
            "oat.image": told["image"],
            "oat.refusals": told["refusals"],
        }
        if told["verdict"] is not None:
            claims |= {"oat.verdict": told["verdict"], "oat.decided": told["decided"] // 1000}
        if told["state"] == "accepted":
            claims["oat.path"] = hashlib.sha256(path).hexdigest()
        token = {
            "eat_profile": PROFILE,
            "iat": int(time.time()),
            "ear.verifier-id": {"developer": "oat", "build": "oat owner"},
            "submods": {f"device-{told['device']}": claims},
        }
        return jwt.encode(token, self._key, algorithm="ES256", headers={"kid": self._public["kid"], "typ": "eat+jwt"})


def write_secret(path: str, text: bytes) -> None:
    """Writes a file that the owner alone can read, whole or not at all."""
    part = f"{path}.{os.getpid()}"
    with open(os.open(part, os.O_CREAT | os.O_TRUNC | os.O_WRONLY, 0o600), "wb") as file:
        file.write(text)
        file.flush()
        os.fsync(file.fileno())
    os.rename(part, path)


def _new_key() -> bytes:
    key = ec.generate_private_key(ec.SECP256R1())
    return key.private_bytes(serialization.Encoding.PEM, serialization.PrivateFormat.PKCS8, serialization.NoEncryption())


def _public_key(key: ec.EllipticCurvePrivateKey) -> dict[str, str]:
    """The public key as a JSON Web Key, named by its thumbprint."""
    numbers = key.public_key().public_numbers()
    x, y = (_coded(number.to_bytes(32, "big")) for number in (numbers.x, numbers.y))
    thumb = hashlib.sha256(f'{{"crv":"P-256","kty":"EC","x":"{x}","y":"{y}"}}'.encode()).digest()
    return {"kty": "EC", "crv": "P-256", "x": x, "y": y, "alg": "ES256", "use": "sig", "kid": _coded(thumb)}


def _coded(data: bytes) -> str:
    return base64.urlsafe_b64encode(data).rstrip(b"=").decode()
