"""docs/openapi.yaml as exchanges_by_curl.py and behind_nginx.py use it: what it says of a reply of keyreg's or of
nginx's own, and whether a body is a command by it."""
import functools
import json
import operator
import re
import sys
from typing import Any, Iterator, Optional

try:
    import jsonschema
    import yaml
except ImportError as missing:
    sys.exit(f"FAILED: {missing.name} is not installed: pip install openapi-spec-validator; "
             "or Debian's python3-jsonschema and python3-yaml, with /usr/bin/python3")

from places import read
from answers import MEMBERS, compact
from register_rules import command_text

MOST_PURPOSE = 200
# In a pattern as ECMA-262 has it `$` is the end. In Python's `re` a line feed may come after.
DOCUMENT = yaml.safe_load(read("docs/openapi.yaml").replace("$'", r"\Z'"))
BODY = DOCUMENT["paths"]["/requests"]["post"]["requestBody"]["content"]["application/json"]
KEY = DOCUMENT["components"]["parameters"]["Key"]["schema"]


def resolved(part: Any) -> Any:
    """The part of the document, or the one that it refers to."""
    while "$ref" in part:
        part = functools.reduce(operator.getitem, part["$ref"].split("/")[1:], DOCUMENT)
    return part


def fault_of(schema: Any, value: Any) -> Optional[str]:
    """What is wrong with the value by a schema of the document, or None."""
    faults = jsonschema.Draft202012Validator({**DOCUMENT, **schema}).iter_errors(value)
    return next((fault.message for fault in faults), None)


def responses(method: str, target: str) -> Any:
    """The replies of keyreg to this method and target, by their statuses. A path with servers of its own is nginx's."""
    for path, item in DOCUMENT["paths"].items():
        if "servers" in item:
            continue
        place = re.fullmatch(path.replace("{key}", "([1-9][0-9]*)"), target)
        if place and not any(fault_of(KEY, int(number)) for number in place.groups()):
            operation = {"GET": item.get("get"), "POST": item.get("post")}.get(method)
            return operation["responses"] if operation else item["x-other-methods"]
    return DOCUMENT["x-other-targets"]


def unmet(method: str, target: str, reply: bytes) -> Optional[str]:
    """What of the bytes of a reply is not as the document says, or None."""
    head, _, body = reply.partition(b"\r\n\r\n")
    first, *fields = head.decode("latin-1").split("\r\n")
    status, of_status = first.split(" ")[1], responses(method, target)
    if status not in of_status:
        return f"no reply of status {status} to {method} {target}"
    response = resolved(of_status[status])
    headers = dict(field.split(": ", 1) for field in fields)
    kind = headers.pop("Content-Type", None)
    headers.pop("Content-Length", None)
    if kind not in response["content"]:
        return f"a content of type {kind}"
    for name, header in response["headers"].items():
        if fault := fault_of(resolved(header)["schema"], headers.pop(name, None)):
            return f"the header {name}: {fault}"
    if headers:
        return f"the headers {sorted(headers)}"
    # A client that asks by HEAD shows no body.
    unmet = fault_of(response["content"][kind]["schema"], json.loads(body)) if body else None
    return f"a body of status {status}: {unmet}" if unmet else None


def unmet_by_nginx(target: str, status: int, fields: dict[str, str], body: str) -> Optional[str]:
    """What of an answer to a GET of a path that is nginx's own is not as the document says, or None."""
    paths = DOCUMENT["paths"]
    item = next(paths[path] for path in paths if re.fullmatch(re.sub("{.*?}", "[^/]+", path), target))
    response = resolved(item["get"]["responses"].get(str(status), {}))
    for name, header in response.get("headers", {}).items():
        if fault := fault_of(header["schema"], fields.get(name.lower())):
            return f"the header {name}: {fault}"
    kind = fields["content-type"].split(";")[0]
    if kind not in response.get("content", {}):
        return f"a content of type {kind} and status {status}"
    return fault_of(response["content"][kind]["schema"], json.loads(body) if kind == "application/json" else body)


def is_command(body: bytes) -> bool:
    """Whether the bytes are a command by the schema of requests. Numbers are read as the specification says: one with
    a point or an exponent and `-0` are none, of which a list meets no schema. The bytes of a purpose are counted: a
    schema has its characters."""
    try:
        value = json.loads(body.decode(), parse_float=list, parse_int=lambda text: [] if text == "-0" else int(text))
        compact(value)
    except (ValueError, RecursionError):
        return False
    return not fault_of(BODY["schema"], value) and len(value.get("purpose", "").encode()) <= MOST_PURPOSE


def media(part: Any) -> Iterator[Any]:
    """Each place of the document that has examples."""
    if isinstance(part, dict):
        yield from [part] if "examples" in part else []
        for inner in part.values():
            yield from media(inner)


def example_faults() -> Iterator[str]:
    """What is wrong with the examples. Each has to meet its schema, and be in the specification: a reply's as a body, a
    request's as the command of a line."""
    texts = read("docs/SPECIFICATION.md") + read("docs/WORKED.md")
    for place in media(DOCUMENT):
        for name, value in ((name, example["value"]) for name, example in place["examples"].items()):
            fault, text = fault_of(place["schema"], value), f"`{compact(value).decode()}`"
            if place is BODY and not fault:
                values = ["=" if value[member] == "keep" else value[member] for member in MEMBERS[value["kind"]]]
                text = f" {command_text((value['kind'], *values))}`"
            if fault or text not in texts:
                yield f"docs/openapi.yaml, the example {name}: {fault or f'{text} is not in the specification'}"
