/* A proved host and a proved terminal for editors whose screen and text live apart, after Rob Pike's sam. README.md explains it. */
export { Client } from "./client.js";
export { Line, Tick } from "./line.js";
export { Link, What, readHello, writeRefusal } from "./link.js";
export { memory } from "./module.js";
export { NoteCode, NoteKind, readNote, writeNote } from "./note.js";
export { EventKind, Overlay } from "./overlay.js";
export { replay } from "./scripts.js";
export { RequestRefused, Session, SessionLost, SessionOver } from "./session.js";
export { Host, Terminal } from "./sides.js";
export {
  AddRefused,
  CountFull,
  EditRefused,
  HandleFault,
  HostRefused,
  Kind,
  LinkFault,
  MarkRefused,
  Missing,
  NoMemory,
  NotText,
  NoteFault,
  SamError,
  ScriptFault,
  Status,
  StreamFault,
  TerminalRefused,
  Unfinished,
  errorOf,
  libraryVersion,
  statusText,
} from "./status.js";
