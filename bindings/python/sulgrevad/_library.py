"""The shared library, as ctypes sees it: its file, and the arguments of each of its calls."""
import ctypes
import os
from ctypes import POINTER, c_bool, c_char, c_char_p, c_size_t, c_uint8, c_uint16, c_uint32, c_uint64, c_void_p
from pathlib import Path
from struct import Struct
from typing import Any, Dict, Tuple, Union

# A text that a call takes: its characters, or its UTF-8.
Text = Union[str, bytes, bytearray, memoryview]

SONAME = "libsulgrevad.so.0.1"
VERSION = (0, 1)  # major and minor number of the library that this package is for

# A text is read in pieces of so many bytes, and a replay is given so much room first.
PIECE = 65_536


class Did(ctypes.Structure):
    """sam_did: the result of a step."""

    _fields_ = [
        ("event", c_uint64), ("request", c_uint64), ("count", c_size_t), ("step", c_uint32), ("why", c_uint32),
        ("start", c_uint32), ("gone", c_uint32), ("came", c_uint32), ("task", c_uint32), ("tag", c_uint16),
        ("kind", c_uint8), ("loads", c_bool),
    ]  # fmt: skip


class State(ctypes.Structure):
    """sam_state: the state of a terminal."""

    _fields_ = [
        ("events", c_uint64), ("decided", c_uint64), ("held", c_uint64), ("sent", c_uint64), ("under_way", c_uint64),
        ("pending", c_size_t), ("tags", c_size_t), ("unsent", c_uint32), ("snarf_len", c_uint32), ("version", c_uint16),
        ("command_locked", c_bool), ("exited", c_bool),
    ]  # fmt: skip


class File(ctypes.Structure):
    """sam_file: the state of a terminal's file."""

    _fields_ = [
        ("len", c_uint32), ("dot_start", c_uint32), ("dot_end", c_uint32), ("view_start", c_uint32), ("view_end", c_uint32),
        ("is_known", c_bool), ("is_open", c_bool), ("is_dirty", c_bool), ("is_changed", c_bool), ("is_locked", c_bool),
        ("is_free", c_bool),
    ]  # fmt: skip


class CSplice(ctypes.Structure):
    """sam_splice: a change of the shown text of a file."""

    _fields_ = [("kind", c_uint32), ("place", c_uint32), ("count", c_uint32), ("tag", c_uint16)]


class CReplacement(ctypes.Structure):
    """sam_replacement: one of several replacements."""

    _fields_ = [("start", c_uint32), ("end", c_uint32), ("count", c_uint32)]


class CChanges(ctypes.Structure):
    """sam_changes: room for the changes that many steps made."""

    _fields_ = [
        ("splices", POINTER(CSplice)), ("most", c_size_t), ("got", c_size_t),
        ("runes", POINTER(c_uint32)), ("room", c_size_t), ("used", c_size_t),
    ]  # fmt: skip


class CEvent(ctypes.Structure):
    """sam_event: an event of the user, for an overlay."""

    _fields_ = [("kind", c_uint32), ("start", c_uint32), ("number", c_uint32), ("tag", c_uint16), ("version", c_uint16)]


class Place(ctypes.Structure):
    """sam_place: the place of bytes in a piece."""

    _fields_ = [("start", c_size_t), ("len", c_size_t)]


class Details(ctypes.Structure):
    """sam_line_details: the state, the counts and the times of a line."""

    _fields_ = [
        ("silence", c_uint64), ("round_trip", c_uint64), ("overdue_after", c_uint64), ("failures", c_uint64), ("attempt", c_uint64),
        ("put_count", c_uint64), ("acknowledged", c_uint64), ("received", c_uint64), ("state", c_uint32), ("why", c_uint32),
        ("is_known", c_bool), ("is_broken", c_bool), ("has_all", c_bool),
    ]  # fmt: skip


class CNote(ctypes.Structure):
    """sam_note: a message of a session."""

    _fields_ = [
        ("kind", c_uint8), ("code", c_uint8), ("tag", c_uint16), ("request", c_uint32), ("number", c_uint64),
        ("path_at", c_size_t), ("path_len", c_size_t), ("copy_at", c_size_t), ("copy_len", c_size_t),
        ("text_at", c_size_t), ("text_len", c_size_t),
    ]  # fmt: skip


class RecordFrame(ctypes.Structure):
    """sam_record_frame: what stands around the body of a record of a journal."""

    _fields_ = [("front", c_uint8 * 24), ("back", c_uint8 * 4)]


class Record(ctypes.Structure):
    """sam_record: a whole record of a journal."""

    _fields_ = [("durable", c_uint64), ("body", c_size_t), ("len", c_size_t), ("next", c_size_t)]


class CEffect(ctypes.Structure):
    """sam_effect: what a durable server asks its program to do."""

    _fields_ = [("len", c_size_t), ("kind", c_uint32), ("tag", c_uint16)]


class Handle(ctypes.Structure):
    """sam_host and all other handles; empty if all bytes are zero."""

    _fields_ = [("at", c_void_p), ("made", c_uint64)]


def reader_of(structure: Any) -> Struct:
    """Returns what reads all fields of a structure at once, in their order: to ask for each by its name takes longer than the call."""
    return Struct("".join(kind._type_ for _, kind in structure._fields_))


_BYTES, _BUFFER, _RUNES = (c_char_p, c_size_t), (POINTER(c_char), c_size_t), (POINTER(c_uint32), c_size_t)
_TAG, _U32, _SIZE = POINTER(c_uint16), POINTER(c_uint32), POINTER(c_size_t)
_U64, _BOOL, _DID = POINTER(c_uint64), POINTER(c_bool), POINTER(Did)
_TEXT_FROM = (c_uint32, *_BUFFER, _SIZE, _U32)

# The arguments of each call after the handle.
SIGNATURES: Dict[str, Tuple[Any, ...]] = {
    "host_new": (), "host_free": (), "host_add_file": (*_BYTES, *_BYTES, _TAG), "host_feed": _BYTES, "host_finish": (),
    "host_bring": _BYTES, "host_next_message": (POINTER(c_uint8), _TAG), "host_step": (_DID,),
    "host_pending": (_SIZE,),
    "host_take_out": (*_BUFFER, _SIZE), "host_next_written": (_TAG,), "host_mark_dirty": (c_uint16,), "host_is_done": (_BOOL,),
    "host_taken": (_U64,),
    "host_fault_place": (_U64,),
    "host_version": (_TAG,), "host_tags": (_SIZE,), "host_has_file": (c_uint16, _BOOL), "host_name": (c_uint16, *_BUFFER, _SIZE),
    "host_len": (c_uint16, _U32), "host_is_dirty": (c_uint16, _BOOL), "host_text": (c_uint16, *_TEXT_FROM),
    "host_saved_len": (c_uint16, _U32), "host_saved": (c_uint16, *_TEXT_FROM), "host_dot": (c_uint16, _U32, _U32),
    "host_snarf_len": (_U32,), "host_snarf": _TEXT_FROM,
    "term_new": (), "term_free": (), "term_type": (c_uint16, *_BYTES), "term_type_text": (c_uint16, *_BYTES, _SIZE),
    "term_edit": (c_uint16, c_uint32, c_uint32, *_BYTES), "term_select": (c_uint16, c_uint32, c_uint32),
    "term_cut": (c_uint16,), "term_paste": (c_uint16,), "term_snarf": (c_uint16,), "term_look": (c_uint16,),
    "term_search": (c_uint16,), "term_send": (c_uint16,), "term_dclick": (c_uint16, c_uint32), "term_scroll": (c_uint16, c_uint32),
    "term_view": (c_uint16, c_uint32, c_uint32), "term_load": (c_uint16, c_uint32, c_uint32), "term_open": (c_uint16,),
    "term_open_cmd": (), "term_new_file": (),
    "term_write": (c_uint16,), "term_close": (c_uint16,), "term_work": (c_uint16,), "term_check": (c_uint16,), "term_get_snarf": (),
    "term_set_snarf": _BYTES, "term_offer_version": (c_uint16,), "term_flush": (), "term_exit": (), "term_feed": _BYTES,
    "term_bring": _BYTES, "term_next_frame": (_DID,), "term_step": (_DID,),
    "term_step_edits": (c_uint32, _DID, c_size_t, _SIZE),
    "term_state": (POINTER(State),), "term_file": (c_uint16, POINTER(File)),
    "term_finish": (), "term_fault_place": (_U64,), "term_flush_now": (), "term_pending": (_SIZE,), "term_take_out": (*_BUFFER, _SIZE),
    "term_next_refusal": (_U64, _U32), "term_events": (_U64,), "term_decided": (_U64,),
    "term_tags": (_SIZE,), "term_is_known": (c_uint16, _BOOL), "term_name": (c_uint16, *_BUFFER, _SIZE),
    "term_is_dirty": (c_uint16, _BOOL), "term_is_changed": (c_uint16, _BOOL), "term_is_open": (c_uint16, _BOOL),
    "term_current": (_TAG,), "term_len": (c_uint16, _U32),
    "term_read": (c_uint16, c_uint32, *_RUNES, _U32), "term_changed": (c_uint16, _U32, _U32, _U32),
    "term_text": (c_uint16, *_TEXT_FROM), "term_bytes": (c_uint16, c_uint32, c_uint32, _SIZE, _U32),
    "term_place": (c_uint16, c_uint32, c_size_t, _U32), "term_line": (c_uint16, c_uint32, c_uint32, _U32),
    "term_units": (c_uint16, c_uint32, c_uint32, _U32, _U32), "term_unit_place": (c_uint16, c_uint32, c_uint32, _U32),
    "term_line_before": (c_uint16, c_uint32, c_uint32, _U32), "term_lines": (c_uint16, c_uint32, c_uint32, _U32, _U32),
    "term_first_gap": (c_uint16, c_uint32, _U32),
    "term_dot": (c_uint16, _U32, _U32), "term_view_of": (c_uint16, _U32, _U32), "term_locked": (c_uint16, _BOOL),
    "term_command_locked": (_BOOL,), "term_held": (_U64,), "term_unsent": (_U32,), "term_sent": (_U64,),
    "term_under_way": (_U64,), "term_pattern": (*_BUFFER, _SIZE), "term_snarfed": _TEXT_FROM, "term_snarf_len": (_U32,),
    "term_exited": (_BOOL,), "term_version": (_TAG,),
    "overlay_new": (), "overlay_free": (), "overlay_bring": _BYTES, "overlay_step": (_DID,), "overlay_next_splice": (POINTER(CSplice),),
    "overlay_finish": (), "overlay_fault_place": (_U64,), "overlay_pending": (_SIZE,), "overlay_take_out": (*_BUFFER, _SIZE),
    "overlay_replace": (c_uint16, c_uint32, c_uint32, *_BYTES), "overlay_put_next": (c_uint16, _U32),
    "overlay_drop_next": (c_uint16, POINTER(CSplice), *_BUFFER, _SIZE),
    "overlay_bring_event": (POINTER(CEvent), *_BYTES), "overlay_next_refusal": (_U64, _U32),
    "overlay_ask": (POINTER(CEvent), *_BYTES, _U64), "overlay_act_next": (_U32,), "overlay_requests": (_SIZE,),
    "overlay_state": (POINTER(State),),
    "overlay_file": (c_uint16, POINTER(File)), "overlay_name": (c_uint16, *_BUFFER, _SIZE), "overlay_current": (_TAG,),
    "overlay_pattern": (*_BUFFER, _SIZE), "overlay_snarfed": _TEXT_FROM, "overlay_waiting": (c_uint16, _U32),
    "overlay_next_waiting": (c_uint16, _TAG), "overlay_first_gap": (c_uint16, c_uint32, _U32),
    "overlay_len": (c_uint16, _U32), "overlay_read": (c_uint16, c_uint32, *_RUNES, _U32), "overlay_text": (c_uint16, *_TEXT_FROM),
    "link_new": (c_uint32, c_char_p), "link_free": (), "link_call": (c_bool, _U64), "link_welcomed": _BYTES, "link_answer": _BYTES,
    "link_broken": (c_uint64,), "link_put": _BYTES, "link_put_note": _BYTES, "link_ask": (), "link_acknowledge": (),
    "link_take_out": (c_uint64, *_BUFFER, _SIZE), "link_feed": (c_uint64, *_BYTES),
    "link_feed_into": (c_uint64, *_BYTES, *_BUFFER, _SIZE), "link_take_in": (*_BUFFER, _SIZE),
    "link_feed_places": (c_uint64, *_BYTES, POINTER(Place), c_size_t, _SIZE),
    "link_next_note": (*_BUFFER, _SIZE), "link_phase": (_U32,), "link_attempt": (_U64,), "link_put_count": (_U64,),
    "link_acknowledged": (_U64,), "link_unsent": (_SIZE,), "link_received": (_U64,),
    "line_new": (c_char_p, c_bool, c_uint64), "line_free": (), "line_tick": (c_uint64, _U32), "line_due_in": (c_uint64, _U64),
    "line_connected": (c_uint64, _U64), "line_not_connected": (c_uint64,), "line_broken": (c_uint64, c_uint64),
    "line_address_changed": (c_uint64,), "line_expect": (c_bool, c_uint64), "line_put": (*_BYTES, c_uint64),
    "line_put_note": (*_BYTES, c_uint64), "line_ask": (c_uint64,), "line_acknowledge": (), "line_take_out": (c_uint64, *_BUFFER, _SIZE),
    "line_receive": (c_uint64, *_BYTES, c_uint64), "line_take_in": (*_BUFFER, _SIZE), "line_next_note": (*_BUFFER, _SIZE),
    "line_describe": (c_uint64, POINTER(Details)), "line_words": (*_BUFFER, _SIZE),
    "client_new": (c_char_p, c_bool, c_uint64), "client_free": (), "client_tick": (c_uint64, _U32), "client_due_in": (c_uint64, _U64),
    "client_connected": (c_uint64, _U64), "client_not_connected": (c_uint64,), "client_broken": (c_uint64, c_uint64),
    "client_address_changed": (c_uint64,), "client_expect": (c_bool, c_uint64), "client_receive": (c_uint64, *_BYTES, c_uint64),
    "client_take_out": (c_uint64, *_BUFFER, _SIZE), "client_acknowledge": (), "client_next_event": (c_uint64, _U32, _DID),
    "client_next_splice": (POINTER(CSplice),), "client_note": (*_BUFFER, _SIZE), "client_put_note": (*_BYTES, c_uint64),
    "client_step_edits": (c_uint64, POINTER(CChanges), _U32, _DID),
    "client_replace": (c_uint16, c_uint32, c_uint32, *_BYTES), "client_ask": (POINTER(CEvent), *_BYTES, _U64),
    "client_replace_each": (c_uint16, POINTER(CReplacement), c_size_t, *_BYTES, _SIZE),
    "client_drop_next": (c_uint16, POINTER(CSplice), *_BUFFER, _SIZE),
    "client_begin": (c_uint32, c_uint16, *_BYTES, c_uint64, _U32), "client_write": (c_uint16, _U32),
    "client_run": (c_uint16, *_BYTES, _U64),
    "client_see": (c_uint16, c_uint32, c_uint32), "client_forget": (c_uint16,), "client_rest": (c_uint64,),
    "client_has_all": (_BOOL,),
    "client_is_unsaved": (c_uint16, _BOOL), "client_requests": (_SIZE,),
    "client_describe": (c_uint64, POINTER(Details)), "client_words": (*_BUFFER, _SIZE),
    "client_state": (POINTER(State),), "client_file": (c_uint16, POINTER(File)), "client_name": (c_uint16, *_BUFFER, _SIZE),
    "client_current": (_TAG,), "client_pattern": (*_BUFFER, _SIZE), "client_snarfed": _TEXT_FROM, "client_fault_place": (_U64,),
    "client_waiting": (c_uint16, _U32), "client_next_waiting": (c_uint16, _TAG), "client_len": (c_uint16, _U32),
    "client_first_gap": (c_uint16, c_uint32, _U32), "client_read": (c_uint16, c_uint32, *_RUNES, _U32),
    "client_text": (c_uint16, *_TEXT_FROM),
    "server_new": (c_char_p,), "server_free": (), "server_add_file": (*_BYTES, *_BYTES, _TAG), "server_accept": _BYTES,
    "server_receive": (c_uint64, *_BYTES), "server_broken": (c_uint64,), "server_say": _BYTES, "server_mark_dirty": (c_uint16,),
    "server_ask": (), "server_acknowledge": (), "server_go_on": (), "server_record_len": (_SIZE,),
    "server_next_record": (*_BUFFER, _SIZE), "server_durable": (c_size_t,), "server_take_out": (c_uint64, *_BUFFER, _SIZE),
    "server_next_effect": (POINTER(CEffect),), "server_heard": (*_BUFFER, _SIZE), "server_effect_done": (c_uint64,),
    "server_closed_name": (*_BUFFER, _SIZE), "server_closed_text": (*_BUFFER, _SIZE),
    "server_is_done": (_BOOL,), "server_tags": (_SIZE,), "server_has_file": (c_uint16, _BOOL),
    "server_name": (c_uint16, *_BUFFER, _SIZE), "server_len": (c_uint16, _U32), "server_is_dirty": (c_uint16, _BOOL),
    "server_text": (c_uint16, *_TEXT_FROM), "server_saved_len": (c_uint16, _U32), "server_saved": (c_uint16, *_TEXT_FROM),
    "server_heir": (c_char_p, POINTER(Handle)),
    "server_is_open": (c_uint16, _BOOL), "server_snarf_len": (_U32,), "server_snarf": _TEXT_FROM,
    "server_attempt": (_U64,), "server_put_count": (_U64,), "server_acknowledged": (_U64,), "server_received": (_U64,),
    "recovery_new": (c_char_p,), "recovery_free": (), "recovery_take": _BYTES, "recovery_finish": (POINTER(Handle),),
}  # fmt: skip

# All arguments, and the result, of each call that takes no handle.
FREE_SIGNATURES: Dict[str, Tuple[Tuple[Any, ...], Any]] = {
    "library_version": ((), c_uint32),
    "status_text": ((c_uint32,), c_char_p),
    "is_stop": ((c_uint32,), c_bool),
    "replay": ((*_BYTES, *_BUFFER, _SIZE, _SIZE), c_uint32),
    "link_read_hello": ((*_BYTES, _U32, POINTER(c_char), _U64), c_uint32),
    "link_write_refusal": ((c_uint32, *_BYTES, POINTER(c_char)), c_uint32),
    "note_read": ((*_BYTES, POINTER(CNote)), c_uint32),
    "note_write": ((POINTER(CNote), c_char_p, c_char_p, c_char_p, *_BUFFER, _SIZE), c_uint32),
    "journal_head": ((c_uint64, POINTER(c_char)), c_uint32),
    "journal_frame": ((c_uint64, c_uint64, c_uint64, *_BYTES, POINTER(RecordFrame)), c_uint32),
    "journal_read": ((*_BYTES, _U64, _U64, _SIZE), c_uint32),
    "journal_next": ((*_BYTES, c_size_t, c_uint64, c_uint64, POINTER(Record)), c_uint32),
}


def path() -> str:
    """Returns the library to load: a file, or the SONAME, which the system looks for."""
    if named := os.environ.get("SAM_LIBRARY"):
        return named
    folder = Path(__file__).resolve().parent
    if (inside := folder / "libsulgrevad.so").exists():  # of a wheel
        return str(inside)
    if folder.parts[-3:] == ("bindings", "python", "sulgrevad"):
        beside = folder.parents[2] / "out" / "libsulgrevad.so"
        if beside.exists():
            return str(beside)
    return SONAME


def load() -> ctypes.PyDLL:
    """Loads the library, and sets the arguments of each call. Raises ImportError if it is not there, lacks a call, or has another
    version."""
    name = path()
    try:
        library = ctypes.PyDLL(name)
        for call, arguments in SIGNATURES.items():
            function = getattr(library, f"sam_{call}")
            function.argtypes, function.restype = (POINTER(Handle), *arguments), c_uint32
        for call, (arguments, result) in FREE_SIGNATURES.items():
            function = getattr(library, f"sam_{call}")
            function.argtypes, function.restype = arguments, result
    except (OSError, AttributeError) as error:
        raise ImportError(f"the library {name} can't be used: {error}") from error
    version = version_of(library)
    if version[:2] != VERSION:
        raise ImportError(f"the library {name} has version {version}, and this package is for {VERSION}")
    return library


def version_of(library: ctypes.PyDLL) -> Tuple[int, int, int]:
    """Returns the library's version: the major, the minor and the patch number."""
    number: int = library.sam_library_version()
    return number >> 16, number >> 8 & 0xFF, number & 0xFF


def bytes_of(text: Text) -> bytes:
    """Returns the text as bytes. A surrogate stays, so that the library refuses it. Raises TypeError for a value that is neither text nor
    bytes."""
    return text.encode("utf-8", "surrogatepass") if isinstance(text, str) else bytes(memoryview(text))


LIBRARY = load()
