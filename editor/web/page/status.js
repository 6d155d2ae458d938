/* The status line, as samterm has it: the file, its selection, the locks, what waits, and how the line is. */

const MOST_IN_NAME = 40;
const TOLD_AFTER = 150; // milliseconds without the host's word before it is told: so with a quick host nothing flickers
const SILENT_AFTER = 3000;

function locksOf({ client, active, views }) {
  if (client.state().commandLocked) return "locked: all";
  const locked = [...views.keys()].filter((tag) => client.file(tag).isLocked);
  if (locked.length === 0) return "free";
  return locked.length === 1 && locked[0] === active?.tag ? "locked: this" : `locked: ${locked.length}`;
}

function fileOf(editor) {
  const { active, cm } = editor;
  if (active === null) return ["no file"];
  const name = editor.nameOf(active.tag);
  const short = name.length > MOST_IN_NAME ? `…${name.slice(-MOST_IN_NAME)}` : name;
  const { start, end } = active.selection;
  const head = cm.getCursor("head");
  const { value: first } = active.shown.gaps().next();
  const isKnown = first === undefined || first.start >= active.shown.placeOf(head);
  const place = `${start},${end} of ${active.shown.runes}${isKnown ? `, line ${head.line + 1}` : ""}`;
  return [short + (editor.isChanged(active.tag) ? " *" : ""), place];
}

function lostLine({ session }) {
  const seconds = `LINE LOST ${Math.floor(session.line.silence / 1000)} s`;
  if (session.traffic.isConnecting) return `${seconds}, connecting`;
  return `${seconds}, again in ${Math.round((session.dueIn ?? 0) / 1000)} s`;
}

/** The words of the status line. */
export function statusOf(editor) {
  const { session, waiting, isBroken } = editor;
  const parts = [...fileOf(editor), editor.isOver ? "HOST LOST" : locksOf(editor)];
  const { putCount, acknowledged, silence } = session.line;
  const { up, down, waiting: buffered } = session.traffic;
  if (isBroken && !editor.isOver) parts.push(lostLine(editor));
  const held = session.client.requests + waiting.count;
  const unsent = isBroken ? putCount - acknowledged : buffered;
  if (held > 0) parts.push(`held ${held}`);
  if (unsent > 0) parts.push(`waiting ${unsent}`);
  if (!isBroken && silence >= TOLD_AFTER && !session.hasAll) parts.push("on the way");
  if (!isBroken && silence >= SILENT_AFTER) parts.push(`no answer for ${Math.floor(silence / 1000)} s`);
  return [...parts, `up ${up} down ${down}`].join(" | ");
}
