"""The calls of the service over HTTP, and their answers.

Who may call, and how long a body may be, is in gate.py. Errors are JSON that says what is wrong and where."""

import os
import re
from typing import Any, Optional

from fastapi import FastAPI, HTTPException, Query, Request
from fastapi.exceptions import RequestValidationError
from fastapi.responses import FileResponse, JSONResponse, PlainTextResponse, Response
from pydantic import BaseModel, Field
from starlette.exceptions import HTTPException as AnyHTTPException

from desk import Changes, Desk, Missing, Stopped
from gate import ANSWER_LIMIT
from picture import Painter
from program import NoReply, Reply, TooMuch
from results import Signer, path_of, told
from store import Known, Store

PAGE = os.path.join(os.path.dirname(os.path.abspath(__file__)), "page")
SECONDS_OF_WAITING = 5

# What a refused answer's kind is in HTTP.
STATUS_OF_REFUSAL = {"frame": 400, "device": 404, "challenge": 404, "spent": 409, "verdict": 403}

POLICY = (
    "default-src 'none'; script-src 'self'; style-src 'self'; img-src blob: data:; connect-src 'self'; "
    "base-uri 'none'; form-action 'none'; frame-ancestors 'none'"
)


class Enrolment(BaseModel):
    """A device: its id, the text of its image, and its key in hexadecimal digits."""

    id: int = Field(ge=0, le=4294967295)
    image: str
    key: str = Field(regex="^([0-9a-fA-F]{2}){1,1024}$")


class Asking(BaseModel):
    """A challenge is asked for: of which operation."""

    operation: int = Field(ge=1, le=65535)


def error(status: int, what: str, where: str) -> HTTPException:
    return HTTPException(status, {"what": what, "where": where})


def answered(reply: Reply, name: str) -> JSONResponse:
    """The reply to an answer, as it was put."""
    if reply.accepted is not None:
        return JSONResponse({"reply": reply.line, "challenge": name.format(reply.accepted)})
    status = STATUS_OF_REFUSAL[reply.refused or "frame"]
    return JSONResponse({"reply": reply.line, "what": reply.line, "where": "body"}, status)


def application(store: Store, desk: Desk, changes: Changes, signer: Signer, painter: Painter) -> FastAPI:
    """The calls on a store."""
    description = "Each reply to a challenge or an answer is what `oat owner` puts. docs/SERVICE.md has more."
    app = FastAPI(title="oat: an owner's service", version="1", description=description)
    add_errors(app)
    add_devices_calls(app, store, desk)
    add_owners_calls(app, store, desk, changes, painter)
    add_results(app, store, signer, painter)
    add_page(app)
    return app


def add_errors(app: FastAPI) -> None:
    """How what goes wrong is answered."""

    def answer(status: int, what: str, where: str, headers: Optional[dict[str, str]] = None) -> JSONResponse:
        return JSONResponse({"what": what, "where": where}, status, headers)

    @app.exception_handler(AnyHTTPException)
    async def refused(request: Request, failure: AnyHTTPException) -> JSONResponse:
        if isinstance(failure.detail, dict):
            return JSONResponse(failure.detail, failure.status_code)
        return answer(failure.status_code, str(failure.detail), f"{request.method} {request.url.path}", failure.headers)

    @app.exception_handler(RequestValidationError)
    async def malformed(request: Request, failure: RequestValidationError) -> JSONResponse:
        first = failure.errors()[0]
        return answer(422, first["msg"], ".".join(str(place) for place in first["loc"]))

    @app.exception_handler(Missing)
    async def missing(request: Request, failure: Missing) -> JSONResponse:
        return answer(404, str(failure), "path")

    @app.exception_handler(NoReply)
    async def no_reply(request: Request, failure: NoReply) -> JSONResponse:
        return answer(503 if isinstance(failure, TooMuch) else 500, f"oat owner gave no reply: {failure}", "service")

    @app.exception_handler(Exception)
    async def failed(request: Request, failure: Exception) -> JSONResponse:
        return answer(500, "the service failed: its log says how", "service")

    @app.exception_handler(Stopped)
    async def stopped(request: Request, failure: Stopped) -> JSONResponse:
        return answer(500, f"the store isn't what oat owner puts: {failure}", "store")


def add_devices_calls(app: FastAPI, store: Store, desk: Desk) -> None:
    """What a device asks: it needs no token, since its blob is under its key."""

    @app.get("/devices/{device}/challenge", tags=["device"], responses={204: {"description": "None is open."}})
    def take_challenge(device: int) -> Any:
        """The challenge frame that the device is to answer next, and where the answer goes."""
        if not is_id(device) or store.device(device) is None:
            raise error(404, f"no device {device} is enrolled", "path.device")
        row = store.next_of(device)
        if row is None:
            return Response(status_code=204)
        script, number = row["script"], row["number"]
        return {"challenge": f"{script}.{number}", "frame": row["frame"], "answer": f"/scripts/{script}/answers"}

    schema = {"type": "string", "format": "binary", "maxLength": ANSWER_LIMIT}
    frames = {"requestBody": {"required": True, "content": {"application/octet-stream": {"schema": schema}}}}
    refusals = {status: {"description": f"refused answer {kind}"} for kind, status in STATUS_OF_REFUSAL.items()}

    @app.post("/scripts/{script}/answers", tags=["device"], openapi_extra=frames, responses=refusals)
    async def answer(script: int, request: Request) -> Any:
        """Puts an answer frame, as its bytes, to the script of the challenge. The reply is that of `oat owner`."""
        frame = await request.body()
        if not frame:
            raise error(400, "an answer frame is wanted", "body")
        if not is_id(script):
            raise Missing(f"there is no script {script}")
        return answered(await desk.answer(script, frame), f"{script}.{{}}")


def row_of(store: Store, name: str) -> dict[str, Any]:
    """A challenge as the store has it."""
    row = store.challenge(*numbers_of(name))
    if row is None:
        raise error(404, f"there is no challenge {name}", "path.challenge")
    return row


def add_owners_calls(app: FastAPI, store: Store, desk: Desk, changes: Changes, painter: Painter) -> None:
    """What the owner asks: enrolment, challenges, and what became of them."""

    @app.post("/devices", status_code=201, tags=["owner"])
    async def enrol(device: Enrolment) -> Any:
        """Enrols a device, where `oat owner` takes it: else the refusal says what is wrong with its image."""
        try:
            digest = await desk.enrol(device.id, device.image.encode(), bytes.fromhex(device.key))
        except Known:
            raise error(409, f"device {device.id} is enrolled", "body.id")
        except NoReply as failure:
            raise error(422, str(failure), "body.image")
        return {"id": device.id, "image": digest}

    @app.get("/devices", tags=["owner"])
    def devices() -> Any:
        """All devices, each with what was last decided."""
        return [{**row, "last": told(store, row_of(store, row["last"])) if row["last"] else None} for row in store.devices()]

    @app.post("/devices/{device}/challenges", status_code=201, tags=["owner"])
    async def ask(device: int, asking: Asking) -> Any:
        """Asks for a challenge. The nonce comes from the system's randomness."""
        if not is_id(device):
            raise Missing(f"no device {device} is enrolled")
        script, reply = await desk.challenge(device, asking.operation)
        if reply.issued is None:
            raise error(422, reply.line, "body.operation")
        return {"reply": reply.line, "challenge": f"{script}.{reply.issued[0]}", "frame": reply.issued[1]}

    @app.get("/challenges", tags=["owner"])
    def challenges(
        only_open: bool = False,
        device: Optional[int] = Query(None, ge=0, le=4294967295),
        most: int = Query(50, ge=1, le=500),
    ) -> Any:
        """The newest challenges, or the newest of those to which no answer was accepted."""
        return [told(store, row) for row in store.challenges(only_open, device, most)]

    @app.get("/challenges/{challenge}", tags=["owner"])
    def challenge(challenge: str) -> Any:
        """A challenge's state, its verdict line, how its answers were refused, and where there is a picture."""
        found = told(store, row_of(store, challenge))
        drawn = found["verdict"] is not None and painter.is_here
        return {**found, "picture": f"/challenges/{challenge}/picture" if drawn else None}

    @app.get("/challenges/{challenge}/path", tags=["owner"], response_class=PlainTextResponse)
    def path(challenge: str) -> Any:
        """The path lines of an accepted challenge."""
        row = row_of(store, challenge)
        if row["accepted"] is None:
            raise error(409, f"challenge {challenge} has no path: no answer was accepted", "path.challenge")
        return PlainTextResponse(path_of(store, row))

    @app.get("/counts", tags=["owner"])
    def counts() -> Any:
        """How many answers were refused, by their kinds."""
        return store.counts()

    @app.get("/changes", tags=["owner"])
    async def changed(after: int = -1) -> Any:
        """Waits until something changed: the number is for the next call."""
        return {"number": await changes.other_than(after, SECONDS_OF_WAITING)}


def add_results(app: FastAPI, store: Store, signer: Signer, painter: Painter) -> None:
    """What is made of a challenge's state: a token, and a picture."""

    def decided(name: str) -> tuple[dict[str, Any], dict[str, Any]]:
        row = row_of(store, name)
        result = told(store, row)
        if result["verdict"] is None:
            raise error(409, f"challenge {name} has no verdict yet", "path.challenge")
        return row, result

    @app.get("/challenges/{challenge}/result", tags=["owner"])
    def result(challenge: str) -> Any:
        """The result as a signed token of the EAR form."""
        row, result = decided(challenge)
        return Response(signer.result(result, path_of(store, row)), media_type="application/eat+jwt")

    @app.get("/keys", tags=["anybody"])
    def keys() -> Any:
        """The keys that results are checked with."""
        return signer.keys()

    @app.get("/challenges/{challenge}/picture", tags=["owner"])
    def picture(challenge: str) -> Any:
        """The picture of a decided challenge's path, where `picture/draw` is there."""
        row, result = decided(challenge)
        drawn = painter.draw(store.image_file(row["image"]), result["verdict"], path_of(store, row))
        if drawn is None:
            raise error(404, "there is no picture", "service")
        headers = {"content-security-policy": "default-src 'none'; style-src 'unsafe-inline'"}
        return Response(drawn, media_type="image/svg+xml", headers=headers)


def add_page(app: FastAPI) -> None:
    """The page, which is in three files."""
    headers = {
        "content-security-policy": POLICY,
        "x-content-type-options": "nosniff",
        "referrer-policy": "no-referrer",
        "cache-control": "no-cache",
    }

    def add(path: str, name: str) -> None:
        @app.get(path, include_in_schema=False)
        def file() -> Any:
            return FileResponse(os.path.join(PAGE, name), headers=headers)

    add("/", "index.html")
    for name in ("page.js", "page.css"):
        add(f"/page/{name}", name)


def is_id(number: int) -> bool:
    return 0 <= number <= 4294967295


def numbers_of(name: str) -> tuple[int, int]:
    """A challenge is named by its script and its number there."""
    if not re.fullmatch(r"[0-9]{1,9}\.[0-9]{1,5}", name):
        raise error(404, f"'{name[:40]}' names no challenge", "path.challenge")
    script, number = name.split(".")
    return int(script), int(number)
