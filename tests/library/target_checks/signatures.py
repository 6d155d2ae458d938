"""Of the calls of include/sulgrevad.h that answer a status: what each takes and hands out, for calls.mjs, and the C code by which native.c
makes the call of a number."""
import re

DECLARATION = re.compile(r"^(?:SAM_MUST_USE )?sam_status (sam_\w+)\(([^)]*)\);", re.M)
FIELDS = {
    "uint8_t": "u8", "uint16_t": "u16", "uint32_t": "u32", "uint64_t": "u64", "size_t": "size", "bool": "truth", "sam_status": "status",
    "sam_did": "did", "sam_state": "state", "sam_file": "file", "sam_note": "note", "sam_record": "record", "sam_record_frame": "frame",
    "sam_line_details": "details", "sam_splice": "splice", "sam_put": "put", "sam_turn": "turn", "sam_client_event": "told",
    "sam_effect": "effect", "sam_changes": "changes",
}
NUMBERS = {"uint16_t": "u16", "uint32_t": "u32", "uint64_t": "u64", "size_t": "size", "bool": "truth"}
LONG = ("u64", "size")  # those of 64 bits
ARRAYS = {"SAM_LINK_ID_BYTES": 16, "SAM_LINK_HELLO_BYTES": 42, "SAM_JOURNAL_HEAD_BYTES": 24}
# Bytes that are compared of what is handed out: of a struct all but those that fill it up.
OUT = {
    "did": 52, "state": 68, "file": 25, "note": 64, "record": 32, "frame": 28, "details": 66, "splice": 14, "effect": 14, "changes": 48,
    "bytes16": 16, "bytes24": 24, "bytes42": 42,
}
OUT_ELSE = 8
ROOMS = {"uint8_t *": 1, "uint32_t *": 4, "sam_place *": 16}  # bytes of each thing that a room is for
ROOM_KINDS = tuple(f"room{size}" for size in ROOMS.values())
HANDLES = {
    "sam_host": "host", "sam_term": "term", "sam_overlay": "overlay", "sam_link": "link", "sam_line": "line", "sam_client": "client",
    "sam_server": "server", "sam_recovery": "recovery",
}  # fmt: skip
STRUCTS = {"const sam_note *": "lent64", "const sam_event *": "lent16"}  # that are lent, and whose length isn't told beside them


def kinds_of(words):
    """What each argument is: a handle, a number, lent bytes or a room (two arguments each), lent bytes whose length isn't told beside them
    (an array, a message, or what a message tells the length of), or what is handed out."""
    kinds = []
    while words:
        kind, name, array = re.fullmatch(r"(.*?)(\w+)(?:\[(\w+)\])?", words.pop(0)).groups()
        kind = kind.strip()
        if array:
            kinds.append(f"{'lent' if kind.startswith('const') else 'out bytes'}{ARRAYS[array]}")
        elif kind == "const uint8_t *" and words[0].startswith("size_t "):
            kinds.append("lent")
            words.pop(0)
        elif kind.startswith("const "):
            kinds.append(STRUCTS.get(kind, "lent0"))
        elif name in ("into", "out", "places"):
            kinds.append(f"room{ROOMS[kind]}")
            words.pop(0)
        elif kind.rstrip(" *") in HANDLES:
            kinds.append(HANDLES[kind.rstrip(" *")])
        elif kind.endswith("*"):
            kinds.append("out " + FIELDS[kind.rstrip(" *")])
        else:
            kinds.append(NUMBERS[kind])
    return kinds


def declared(header):
    """The name and the arguments of each call, in the order of the header."""
    return DECLARATION.findall(re.sub(r"/\*.*?\*/", "", header, flags=re.S))


def signatures(header):
    """The names of the calls, and the kinds of their arguments."""
    return [(name, kinds_of([" ".join(word.split()) for word in words.split(",")])) for name, words in declared(header)]


def case(code, name, kinds):
    """The C code of a call: it gets the arguments, makes it, and writes the answer."""
    makers = dict.fromkeys(("lent", "lent0", "lent16", "lent64"), "lent()") | {f"room{size}": f"filled({size})" for size in ROOMS.values()}
    makers |= {handle: f"{handle}()" for handle in HANDLES.values()}
    types = {**{handle: f"{kind} *" for kind, handle in HANDLES.items()}, **{field: f"{kind} " for kind, field in NUMBERS.items()}}
    makers |= {field: f"({kind}){'long_number' if field in LONG else 'number'}()" for kind, field in NUMBERS.items()}
    lines, words, after = [], [], []
    for at, kind in enumerate(kinds):
        if kind.startswith("out "):
            lines.append(f"union out a{at} = filler();")
            words.append(f"a{at}.bytes" if "bytes" in kind else f"&a{at}.{kind[4:]}")
            after.append(f"put(a{at}.bytes, {OUT.get(kind[4:], OUT_ELSE)});")
        elif kind in types:
            lines.append(f"{types[kind]}a{at} = {makers[kind]};")
            words.append(f"a{at}")
        else:
            lines.append(f"struct lent a{at} = {makers[kind]};")
            words += [f"(void *)a{at}.at", *([f"a{at}.length"] if kind in ("lent", *ROOM_KINDS) else [])]
            after += [f"put(a{at}.at, a{at}.length * {kind[4:]});"] if kind.startswith("room") else []
            after.append(f"free(a{at}.at);")
    body = "\n        ".join([*lines, f"put_number({name}({', '.join(words)}));", *after, "break;"])
    return f"    case {code}: {{\n        {body}\n    }}\n"


def code_of(calls):
    """The C code of calls.h."""
    cases = "".join(case(code, name, kinds) for code, (name, kinds) in enumerate(calls))
    return f"static void call(int code)\n{{\n    switch (code) {{\n{cases}    default:\n        exit(1);\n    }}\n}}\n"
