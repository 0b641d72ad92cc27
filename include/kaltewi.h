/* Kaltewi: a client of the Firebase Realtime Database that talks to no network itself. The program moves texts
   between it and the server, and asks it for what is new.

   What a program has to see to, since nothing checks it:
   - A handle begins as {0}, which is closed. It is never copied, and written by these calls alone.
   - Handles, rooms, texts and numbers of one call do not overlap. A pointer is never null; a text of no bytes still
     has a pointer, as to "".
   - A handle belongs to one thread, and to one call at a time.
   - malloc, realloc and free are those of one allocator (the archive of the C library's calls names them).

   What it need not see to: texts may be any bytes, numbers any numbers, rooms of any size, handles closed. Each
   call then says by its status what is wrong, and changes nothing.

   Texts go in as a pointer and a length, and end in no zero byte. Texts come out into a room of the caller's: *len is
   set to the length of the whole text. Where that is more than the room, the call says KW_TOO_SMALL and writes
   nothing; the same text is given by the next such call.

   docs/FORMATS.md says what paths, trees, queries, lines, messages and items are. */
#ifndef KALTEWI_H
#define KALTEWI_H

#include <stdbool.h>
#include <stddef.h>
#include <stdint.h>

#ifdef __cplusplus
extern "C" {
#endif

/* What is open, or nothing. */
typedef struct {
    bool is_open;
    void *at;
} kw_handle;

typedef kw_handle kw_core;   /* a core that lines of a script drive */
typedef kw_handle kw_client; /* a client with its seats */

/* How a call ends. */
typedef uint32_t kw_status;
enum {
    KW_DONE = 0,
    KW_NONE = 1,            /* nothing is there to be taken */
    KW_STALE = 2,           /* the step came too late, and has changed nothing */
    KW_TOO_SMALL = 3,       /* the text is longer than its room: nothing is written, and it is still to be had */
    KW_CLOSED = 4,          /* the handle is closed, or another kind's */
    KW_NO_MEMORY = 5,
    KW_FAILED = 6,          /* the client has lacked memory before: it makes no step and shows no cover from then on */
    KW_BAD_TEXT = 7,        /* no UTF-8, no JSON, or of another form than the call has */
    KW_WRONG_SEAT = 8,      /* the client has no such seat */
    KW_TOO_MANY_SEATS = 10, /* more than 64 */
    KW_REFUSED = 11         /* a layer refuses: kw_client_error says which, and why */
};

/* ---- a core that lines of a script drive */

/* Opens a core. One that is open is closed first. KW_DONE, or KW_NO_MEMORY: it is closed then. */
kw_status kw_core_open(kw_core *core);

/* Does what a line of a script asks for, without the line feed at its end. What it prints is the core's text until
   the next line. KW_DONE; KW_BAD_TEXT for a line of no form, which prints `bad line N`, N being its number from 1;
   KW_NO_MEMORY, after which the text is empty and the core may have failed; KW_CLOSED. */
kw_status kw_core_line(kw_core *core, const uint8_t *line, size_t line_len);

/* Copies the core's text. KW_DONE, KW_TOO_SMALL or KW_CLOSED. */
kw_status kw_core_text(kw_core *core, uint8_t *out, size_t room, size_t *len);

/* Closes a core; one that is closed stays so. */
void kw_core_close(kw_core *core);

/* ---- a client with its seats

   A client knows what the server has, as far as somebody listens to it, and what was written here and is not settled
   yet. It has seats, numbered from 1: each is told of its own listeners and requests, by items, in order. A listener
   and a request have a number, from 1, which is never given twice.

   Any call may also end with KW_CLOSED, and nothing has changed; with KW_FAILED, once a step has lacked memory; and, but
   for kw_client_settle, with KW_NO_MEMORY: where a text could not be read or made, or memory lacked for items that a full
   ring makes room for, the call is not made and nothing is lost; else the client has failed.
   A client that has failed still gives what its seats hold, a message that was taken out before, and push ids. */

/* Opens a client with a seat for each of so many numbers, each saying how many items the seat's ring holds: a 0 counts
   as 1, and more than 65,536 as that. A small ring does: where a call of the seat finds it full, its items are taken out
   into memory that grows with them. One that is open is closed first. KW_DONE, KW_TOO_MANY_SEATS, KW_NO_MEMORY. */
kw_status kw_client_open(kw_client *client, const size_t *rings, size_t seats);

/* Closes a client; one that is closed stays so. */
void kw_client_close(kw_client *client);

/* Why the last call ended with KW_REFUSED: the name of the layer, a space and the name of the refusal, as `tree BadKey`,
   and its number within its layer. KW_DONE, KW_TOO_SMALL, KW_NONE where the last call ended otherwise. */
kw_status kw_client_error(kw_client *client, uint32_t *code, uint8_t *out, size_t room, size_t *len);

/* -- calls of a seat

   Each hands over to the seat all that waited for it, and then the receipt of the call. A path is a text as "/a/b", a
   tree is JSON, and entries are an object of trees by their paths: {"/a/b":1,"/c":null}.

   KW_DONE, and the number of the new listener or request; KW_BAD_TEXT where a text is no UTF-8, a query no JSON, or
   entries no JSON object; KW_REFUSED where a path, a tree, a query or the core refuses it; KW_WRONG_SEAT. On all but
   KW_DONE the number is 0 and, but for a want of memory, nothing has changed: what waited may have been handed over. */

/* Registers a listener, which the seat is told of from then on. The query is the member `q` of the message that listens,
   as {"limit":["last",2],"order":"/score"}, or an order alone, as {"order":"/score"}; one of no bytes listens to all of
   the path in the order of its keys. */
kw_status kw_client_listen(kw_client *client, uint64_t seat, const uint8_t *path, size_t path_len, const uint8_t *query,
                           size_t query_len, uint64_t *listener);

/* Ends a listener of the seat. */
kw_status kw_client_unlisten(kw_client *client, uint64_t seat, uint64_t listener);

/* Sets a tree at a path; null removes. */
kw_status kw_client_set(kw_client *client, uint64_t seat, const uint8_t *path, size_t path_len, const uint8_t *tree,
                        size_t tree_len, uint64_t *request);

/* Sets several trees, each at its path, in one write. */
kw_status kw_client_update(kw_client *client, uint64_t seat, const uint8_t *entries, size_t entries_len,
                           uint64_t *request);

/* Removes what is at a path. */
kw_status kw_client_remove(kw_client *client, uint64_t seat, const uint8_t *path, size_t path_len, uint64_t *request);

/* Asks the server to set a tree at a path, or several, when the connection ends. */
kw_status kw_client_on_disconnect(kw_client *client, uint64_t seat, const uint8_t *path, size_t path_len,
                                  const uint8_t *tree, size_t tree_len, uint64_t *request);
kw_status kw_client_on_disconnect_update(kw_client *client, uint64_t seat, const uint8_t *entries, size_t entries_len,
                                         uint64_t *request);

/* Drops what was to be written at and below a path when the connection ends. */
kw_status kw_client_cancel_disconnect(kw_client *client, uint64_t seat, const uint8_t *path, size_t path_len,
                                      uint64_t *request);

/* -- the connection, which is the program's: each text is one message of a WebSocket */

/* A connection to the server stands, or has ended. KW_DONE, KW_REFUSED. A message that was asked for and not given yet goes
   with its connection. */
kw_status kw_client_connected(kw_client *client);
kw_status kw_client_disconnected(kw_client *client);

/* Takes a message of the server. KW_DONE; KW_STALE where it came too late; KW_BAD_TEXT where it is no UTF-8; KW_REFUSED
   where it is no message, or the core refuses it. */
kw_status kw_client_server_message(kw_client *client, const uint8_t *message, size_t message_len);

/* Takes out the first message that is to be sent. KW_DONE, KW_NONE, or KW_TOO_SMALL, and then it is still to be had. */
kw_status kw_client_take_outgoing(kw_client *client, uint8_t *out, size_t room, size_t *len);

/* -- what a seat is told */

/* Hands over to the seat's ring what waits for it, in order, as long as there is room. KW_DONE, KW_WRONG_SEAT. */
kw_status kw_client_settle(kw_client *client, uint64_t seat);

/* Kinds of changes, as bits of one number. */
enum { KW_REMOVED = 1, KW_ADDED = 2, KW_MOVED = 4, KW_CHANGED = 8, KW_VALUE = 16 };

/* From now on the batches that the seat is given of a listener have changes of these kinds alone, in their order, and
   none where there is none of these: without KW_VALUE a batch costs by what has changed, and not by what the listener
   shows. Other bits are passed over. Nothing is said of a listener at first, and nothing is known of it any more once its
   end is given: then it is told all kinds. KW_DONE; KW_WRONG_SEAT; on KW_NO_MEMORY it is told what it was told. */
kw_status kw_client_want(kw_client *client, uint64_t seat, uint64_t listener, uint32_t kinds);

/* Takes the first item that was handed over to the seat, as JSON. KW_DONE; KW_NONE where there is none, which says nothing
   of what still waits to be handed over; KW_TOO_SMALL, and then it is still to be had; KW_WRONG_SEAT. */
kw_status kw_client_next(kw_client *client, uint64_t seat, uint8_t *out, size_t room, size_t *len);

/* -- what a client knows */

/* The listens that are kept at the server, a line each, as the console prints them. KW_DONE, KW_TOO_SMALL. */
kw_status kw_client_cover(kw_client *client, uint8_t *out, size_t room, size_t *len);

/* Makes the next push id, of 20 characters, for the moment now in milliseconds since 1970 and twelve numbers from 0 to
   63, drawn at random. KW_DONE; KW_TOO_SMALL where the room has fewer than 20 bytes, and none is used up; KW_REFUSED. */
kw_status kw_client_push_key(kw_client *client, uint64_t now_ms, const uint8_t random[12], uint8_t *out, size_t room,
                             size_t *len);

#ifdef __cplusplus
}
#endif

#endif
