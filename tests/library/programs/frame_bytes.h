/* frame_bytes.h: what frames are made of, as docs/reference/PROTOCOL.md has them: kind, length, the stamp, the tag and the fields. */
#ifndef FRAME_BYTES_H
#define FRAME_BYTES_H

#define STAMP "\0\0\0\0\0\0\0\0"
#define TAG "\0\1"
#define PLACE(place) "\0\0\0" place
enum { LAST_OF_STAMP = 10 };

#endif
