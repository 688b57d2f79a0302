"""The calls as an OpenAPI document, and as a page for readers, both made from the table of calls."""

import json
from html import escape
from typing import Any

from .calls import CALLS, POSTING, POTENTIAL, ROW, Call
from .fields import HEADS, ROWS, TOLD, WITH_ROWS, Form

NAME = {"type": "string", "pattern": "^[A-Z0-9-]{1,16}$"}
NUMBER = {"type": "integer", "format": "int64", "minimum": 0}
SCHEMAS: dict[str, dict[str, Any]] = {
    **{word: NAME for word in ("seller", "buyer", "product", "other", "member")},
    **{word: NUMBER for word in ("trade", "cycle", "version", "floor")},
    "amount": {**NUMBER, "minimum": 1},
    "ceiling": {**NUMBER, "nullable": True},
    "value": {"type": "integer", "minimum": -1_000_000, "maximum": 1_000_000},
    "day": {"type": "string", "format": "date"},
    "side": {"type": "string", "enum": ["out", "in"]},
    "mode": {"type": "string", "enum": ["conservative", "hybrid", "free"]},
}
"""The form of each field of a request."""
TYPES: dict[Any, dict[str, Any]] = {int: {"type": "integer"}, str: {"type": "string"}, bool: {"type": "boolean"}}
TYPES[int | None] = {"type": "integer", "nullable": True}
ENDED = {"type": "string", "enum": ["executed", "cancelled", "nothing"]}
REFUSED = {"error": "string", "reply": "string", "position": "integer", "number": "integer", "name": "string", "value": "string"}
STATUSES = {
    "401": "Nobody is signed in with this token, or the key is not the name's any more.",
    "409": "The line was refused, or it is not known whether it was answered: error is refused, unknown or running.",
    "422": "A field is missing or wrong, or the service could not read the line.",
    "503": "No seat in time. Nothing was sent; Retry-After says when to ask again.",
}
KEY = {
    "name": "Idempotency-Key",
    "in": "header",
    "schema": {"type": "string", "maxLength": 128},
    "description": "A call with the same key is sent once, and answered alike.",
}


def object_of(properties: dict[str, Any], required: list[str] | None = None) -> dict[str, Any]:
    return {"type": "object", "properties": properties, "required": [*properties] if required is None else required}


def fields_of(form: Form) -> dict[str, Any]:
    return {name: TYPES[kind] for name, kind in zip(form.names, form.kinds)}


def row_of(word: str) -> dict[str, Any]:
    told = {TOLD[word]: {"type": "string", "enum": [word]}} if word in TOLD else {}
    return object_of({**told, **fields_of(ROWS[word])})


def answer_of(kind: str) -> dict[str, Any]:
    """What a reply of this kind is answered as."""
    fields = fields_of(HEADS[kind])
    if kind in WITH_ROWS:
        rows = [row_of(word) for word in WITH_ROWS[kind]]
        fields["rows"] = {"type": "array", "items": rows[0] if len(rows) == 1 else {"oneOf": rows}}
    parts = {"reply": {"type": "string", "nullable": True}, "position": TYPES[int], "kind": {"type": "string", "enum": [kind]}}
    return object_of({**parts, "fields": object_of(fields)})


def content(schema: dict[str, Any]) -> dict[str, Any]:
    return {"content": {"application/json": {"schema": schema}}}


def body_of(call: Call) -> dict[str, Any] | None:
    """The form of a call's body, where it has one."""
    properties: dict[str, Any] = {word: SCHEMAS[word] for word in call.body}
    if call is POSTING:
        for name, form in (("rows", ROW), ("potentials", POTENTIAL)):
            properties[name] = {"type": "array", "items": object_of({word: SCHEMAS[word] for word in form.words})}
    return {"required": True, **content(object_of(properties))} if properties else None


def operation_of(call: Call) -> dict[str, Any]:
    answers = [answer_of(kind) for kind in call.kinds]
    refused = object_of({name: {"type": kind} for name, kind in REFUSED.items()}, ["error"])
    responses: dict[str, Any] = {"200": {"description": "The reply.", **content(answers[0] if len(answers) == 1 else {"oneOf": answers})}}
    responses |= {status: {"description": told, **content(refused)} for status, told in STATUSES.items()}
    path = [{"name": word, "in": "path", "required": True, "schema": SCHEMAS[word]} for word in call.words if word not in call.body]
    body = body_of(call)
    return {
        "operationId": "-".join([call.method.lower(), *(part for part in call.path.split("/")[2:] if "{" not in part)]),
        "summary": call.told,
        "description": f"The line {' '.join([call.verb, *(word.upper() for word in call.words)])} of a session.",
        "parameters": [*path, *([] if call.is_question else [KEY])],
        **({"requestBody": body} if body else {}),
        "responses": responses,
        "security": [{"token": []}],
    }


def own_paths() -> dict[str, Any]:
    """The calls that are no line."""
    token = object_of({"token": TYPES[str], "name": NAME, "role": TYPES[str], "idle": {"type": "number"}, "position": TYPES[int]})
    who = object_of({"name": NAME, "role": {"type": "string", "enum": ["member", "operator"]}})
    fields = object_of({"cycle": TYPES[int], "phase": TYPES[str], "version": TYPES[int], "trade": TYPES[int], "ended": ENDED}, ["cycle", "phase"])
    secured: dict[str, Any] = {"security": [{"token": []}]}
    wrong = {"401": {"description": "The key is not the name's."}, "429": {"description": "Too many keys of this name are being tried; Retry-After says when to try again."}}
    sign_in = {
        "summary": "Signs in, and gives the token that the other calls want.",
        "requestBody": {"required": True, **content(object_of({"name": NAME, "key": NAME}))},
        "responses": {"201": {"description": "The token.", **content(token)}, **wrong},
    }
    asks = {"summary": "Who is signed in.", "responses": {"200": {"description": "The name and its role.", **content(who)}}, **secured}
    signs_out = {"summary": "Signs out; the key is forgotten.", "responses": {"204": {"description": "It is done."}}, **secured}
    stands = object_of({"reply": TYPES[str], "position": TYPES[int], "kind": TYPES[str], "fields": fields})
    cycle = {"summary": "Where the last cycle stands.", "responses": {"200": {"description": "Its phase.", **content(stands)}}, **secured}
    session = {"post": sign_in, "get": asks, "delete": signs_out}
    return {"/api/session": session, "/api/cycle": {"get": cycle}, **paths_of_page()}


def paths_of_page() -> dict[str, Any]:
    """The calls that are the page's."""

    def operation(summary: str, told: str, schema: dict[str, Any], more: dict[str, Any]) -> dict[str, Any]:
        return {"summary": summary, "responses": {"200": {"description": told, **content(schema)}}, "security": [{"token": []}], **more}

    text = TYPES[str]
    roster = object_of({"roster": text, "currencies": {"type": "object", "additionalProperties": text}})
    since = {"name": "since", "in": "query", "required": False, "schema": NUMBER, "description": "The position of the trades that are known."}
    book = object_of({"position": NUMBER, "since": {**NUMBER, "nullable": True}, "lines": {"type": "array", "items": text}})
    texts = {name: text for name in ("roster", "notes", "proof", "plan")}
    parts = object_of({**texts, "complete": TYPES[bool]}, ["notes", "proof", "plan"])
    counts = object_of({name: NUMBER for name in ("pairs", "tolerances", "later", "untold", "trades")})
    lacks = {"type": "array", "items": {"type": "string", "enum": ["tolerances", "trades"]}}
    word = {"type": "string", "enum": ["yes", "no", "unsure"]}
    line = {**text, "nullable": True}
    verdict = object_of({"verdict": word, "all": text, "clash": text, "line": line, "compared": counts, "lacks": lacks}, ["verdict"])
    fields: dict[str, Any] = {"cycle": NUMBER, "version": NUMBER, "accepted": {"type": "array", "items": NAME}}
    fields["declined"] = {**NAME, "nullable": True}
    fields["left"] = {**NUMBER, "nullable": True}
    votes = object_of(fields)
    vote = {"type": "string", "enum": ["accepted", "declined"], "nullable": True}
    mine = object_of({"cycle": NUMBER, "version": NUMBER, "vote": vote})
    played = object_of({"mode": SCHEMAS["mode"], "reply": text, "kind": text, "fields": {"type": "object"}}, ["mode", "reply", "kind"])
    modes = object_of({"modes": {"type": "array", "items": played}})
    rehearsed = {"requestBody": {"required": True, **content(object_of({"cycle": NUMBER}))}}
    body = {"requestBody": {"required": True, **content(parts)}}
    return {
        "/api/roster": {"get": operation("The roster without keys.", "Its text, and currencies by product.", roster, {})},
        "/api/book": {"get": operation("A member's trades, or those that have changed since a position.", "Lines of its STATEMENT.", book, {"parameters": [since]})},
        "/api/check": {"post": operation("A member's own test of a proposal, by its texts.", "yes, no, or unsure, with what was compared and what not.", verdict, body)},
        "/api/rehearsal": {"post": operation("What a PROPOSE in each mode would be answered, for the operator.", "The replies.", modes, rehearsed)},
        "/api/votes/mine": {"get": operation("What the member has voted through this gateway.", "The vote on the last version that had one.", mine, {})},
        "/api/votes": {"get": operation("Who has voted through this gateway, for the operator.", "The votes on a version.", votes, {})},
    }


def document() -> dict[str, Any]:
    from .. import __version__

    paths = own_paths()
    for call in (*CALLS, POSTING):
        paths.setdefault(call.path, {})[call.method.lower()] = operation_of(call)
    return {
        "openapi": "3.0.3",
        "info": {"title": "Delkwoan", "version": __version__, "description": "Lines of a session, one call each."},
        "paths": paths,
        "components": {"securitySchemes": {"token": {"type": "http", "scheme": "bearer"}}},
    }


def text() -> str:
    return json.dumps(document())


def page() -> str:
    """The calls as a page without scripts, and with nothing from elsewhere."""
    rows = []
    for path, operations in document()["paths"].items():
        for method, it in operations.items():
            schema = it.get("requestBody", {}).get("content", {}).get("application/json", {}).get("schema", {})
            cells = [f"<code>{method.upper()} {escape(path)}</code>", escape(it["summary"]), escape(", ".join(schema.get("properties", {})))]
            rows.append("<tr>" + "".join(f"<td>{cell}</td>" for cell in cells) + "</tr>")
    head = "<tr><th scope=col>Call</th><th scope=col>What it does</th><th scope=col>Fields of its body</th></tr>"
    style = "body{font:16px sans-serif;margin:2rem;color-scheme:light dark}td,th{text-align:left;padding:.3rem 1rem .3rem 0;vertical-align:top}"
    return (
        f"<!doctype html><html lang=en><meta charset=utf-8><meta name=viewport content='width=device-width'><title>Delkwoan</title><style>{style}</style>"
        f"<h1>Calls</h1><p>Their forms stand in <a href=/openapi.json>openapi.json</a>.</p><table>{head}{''.join(rows)}</table></html>"
    )
