"""Reads results as a relying party does: by their signature and their claims."""

import hashlib
import json
from typing import Any

import jwt

from answering import Client
from load import have
from served import Served


def claims_of(client: Client, challenge: str) -> dict[str, Any]:
    """The claims of a challenge's result, whose signature is by a key of the service."""
    status, token = client.call("GET", f"/challenges/{challenge}/result")
    have(status == 200, f"challenge {challenge} has no result: {token.decode()}")
    kid = jwt.get_unverified_header(token.decode())["kid"]
    keys = [key for key in client.told("GET", "/keys")["keys"] if key["kid"] == kid]
    have(len(keys) == 1, "the service doesn't tell the key of a result")
    claims = jwt.decode(token.decode(), jwt.PyJWK(keys[0]).key, algorithms=["ES256"])
    (device,) = claims["submods"].values()
    have(claims["iat"] > 0 and claims["eat_profile"].endswith("ear"), "a result isn't of the EAR form")
    return device


def read_results(served: Served, accepted: str, refused: str) -> None:
    """The results of an accepted and a refused challenge say so, and the first has the digests of the path and of the image."""
    owner = served.owner()
    good, bad = claims_of(owner, accepted), claims_of(owner, refused)
    path = owner.call("GET", f"/challenges/{accepted}/path")[1]
    have(good["ear.status"] == "affirming" and good["oat.path"] == hashlib.sha256(path).hexdigest(), f"an acceptance's result is {good}")
    image = owner.told("GET", f"/challenges/{accepted}")["image"]
    have(good["oat.image"] == image, "a result has another image")
    have(bad["ear.status"] == "contraindicated" and "oat.path" not in bad, f"a refusal's result is {bad}")


def no_key_is_told(served: Served, key: str) -> None:
    """No call of the owner's is answered with a device's key."""
    owner = served.owner()
    for path in ("/devices", "/challenges", "/challenges/1.0", "/counts", "/openapi.json"):
        have(key not in json.dumps(owner.told("GET", path)), f"{path} tells a key")
