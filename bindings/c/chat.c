/* A chat of two clients: chat PORT, beside a new `./kaltewi emulate PORT`. Each has a connection of its own, by Debian's
   libwebsockets-dev. Ann says a line, bob answers once he hears it, and each goes once it has heard both and what it said
   is settled. */
#include <kaltewi.h>
#include <libwebsockets.h>
#include <stdlib.h>
#include <string.h>
#include <time.h>

#define TEXT(text) (const uint8_t *)(text), strlen(text)

/* A text that grows, behind the LWS_PRE bytes that lws_write wants before it. */
typedef struct {
    uint8_t *at;
    size_t room, len;
} growing;

/* Who says a line, and hears all of them. */
typedef struct {
    const char *name, *line;
    unsigned hears_first, heard, unsettled; /* hears_first: how many lines it hears before it says its own */
    bool has_said, is_gone;
    kw_client client;
    growing came, taken; /* what has come of a message; the item or the message that was taken last */
} chatter;

static bool has_failed;

/* Says why the chat ends, the first time, and answers what closes a connection. */
static int fail(const chatter *c, const char *why)
{
    if (!has_failed)
        fprintf(stderr, "%s: %s\n", c->name, why);
    has_failed = true;
    return -1;
}

/* Makes room for so many bytes and one more. */
static bool has_room(growing *text, size_t len)
{
    if (len < text->room)
        return true;
    uint8_t *at = realloc(text->at, LWS_PRE + 2 * len + 1);
    if (at)
        *text = (growing){at, 2 * len + 1, text->len};
    return at;
}

static kw_status next_item(kw_client *client, uint8_t *out, size_t room, size_t *len)
{
    kw_status status = kw_client_settle(client, 1);
    return status == KW_DONE ? kw_client_next(client, 1, out, room, len) : status;
}

/* Takes an item or a message, by the call that gives it. One that is longer than its room is still to be had. */
static kw_status take(chatter *c, kw_status (*call)(kw_client *, uint8_t *, size_t, size_t *))
{
    growing *text = &c->taken;
    kw_status status;
    while ((status = call(&c->client, text->at + LWS_PRE, text->room - 1, &text->len)) == KW_TOO_SMALL)
        if (!has_room(text, text->len))
            return KW_NO_MEMORY;
    text->at[LWS_PRE + (status == KW_DONE ? text->len : 0)] = 0;
    return status;
}

/* Prints the lines that an item adds. Its members stand in the order of their names, and a quote within a text has a
   backslash before it. */
static void print_lines(chatter *c, const char *at)
{
    for (; (at = strstr(at, "\"k\":\"added\"")) && (at = strstr(at, "\"value\":\"")); c->heard++) {
        const char *line = at += strlen("\"value\":\"");
        while (*(at += strcspn(at, "\"\\")) == '\\')
            at += 2;
        printf("%s hears: %.*s\n", c->name, (int)(at - line), line);
    }
}

/* Hears all that its seat is told. */
static kw_status hear(chatter *c)
{
    kw_status status;
    while ((status = take(c, next_item)) == KW_DONE) {
        const char *item = (const char *)c->taken.at + LWS_PRE;
        if (strncmp(item, "{\"changes\":", 11) == 0)
            print_lines(c, item);
        else if (strstr(item, "\"k\":\"ok\""))
            c->unsettled--;
        else if (strstr(item, "\"why\":")) /* the server has refused the line, or ended the listener */
            fail(c, item);
    }
    return status == KW_NONE ? KW_DONE : status;
}

/* Says its line, under a new push id. */
static kw_status say(chatter *c, struct lws_context *context)
{
    char path[] = "/chat/12345678901234567890", tree[64];
    uint8_t random[12];
    uint64_t request;
    size_t len;
    struct timespec now;
    timespec_get(&now, TIME_UTC);
    uint64_t now_ms = (uint64_t)now.tv_sec * 1000 + (uint64_t)now.tv_nsec / 1000000;
    lws_get_random(context, random, sizeof random);
    for (int i = 0; i < 12; i++)
        random[i] &= 63;
    kw_status status = kw_client_push_key(&c->client, now_ms, random, (uint8_t *)path + strlen("/chat/"), 20, &len);
    if (status != KW_DONE)
        return status;
    snprintf(tree, sizeof tree, "\"%s: %s\"", c->name, c->line);
    c->has_said = true;
    c->unsettled++;
    return kw_client_set(&c->client, 1, TEXT(path), TEXT(tree), &request);
}

/* Takes a part of a message, and hands the message over once it is whole. */
static kw_status receive(chatter *c, const void *part, size_t len, bool is_last)
{
    growing *text = &c->came;
    if (!has_room(text, text->len + len))
        return KW_NO_MEMORY;
    memcpy(text->at + text->len, part, len);
    len += text->len;
    text->len = is_last ? 0 : len;
    kw_status status = is_last ? kw_client_server_message(&c->client, text->at, len) : KW_DONE;
    return status == KW_STALE ? KW_DONE : status;
}

/* What libwebsockets tells of a connection. Any answer but 0 closes it. */
static int told(struct lws *socket, enum lws_callback_reasons what, void *of, void *part, size_t len)
{
    chatter *c = of;
    bool is_done = c && c->has_said && c->heard >= 2 && !c->unsettled;
    kw_status status;
    uint64_t listener;
    switch (what) {
    case LWS_CALLBACK_CLIENT_ESTABLISHED:
        if ((status = kw_client_connected(&c->client)) == KW_DONE)
            status = kw_client_listen(&c->client, 1, TEXT("/chat"), TEXT(""), &listener);
        break;
    case LWS_CALLBACK_CLIENT_RECEIVE:
        status = receive(c, part, len, lws_is_final_fragment(socket));
        break;
    case LWS_CALLBACK_CLIENT_WRITEABLE: /* for one message each time */
        status = take(c, kw_client_take_outgoing);
        if (status == KW_NONE && is_done)
            lws_close_reason(socket, LWS_CLOSE_STATUS_NORMAL, NULL, 0);
        if (status == KW_NONE)
            return is_done;
        if (status == KW_DONE && lws_write(socket, c->taken.at + LWS_PRE, c->taken.len, LWS_WRITE_TEXT) < 0)
            return fail(c, "a message can't be sent");
        break;
    case LWS_CALLBACK_CLIENT_CONNECTION_ERROR:
        return fail(c, "no connection can be made");
    case LWS_CALLBACK_CLIENT_CLOSED:
        c->is_gone = true;
        return is_done ? 0 : fail(c, "the server closed the connection");
    default:
        return 0;
    }
    if (status == KW_DONE)
        status = hear(c);
    if (status == KW_DONE && !c->has_said && c->heard >= c->hears_first)
        status = say(c, lws_get_context(socket));
    lws_callback_on_writable(socket);
    if (status == KW_DONE)
        return 0;
    return fail(c, status == KW_NO_MEMORY ? "out of memory" : "what the server sent is refused");
}

int main(int count, char **words)
{
    static const size_t rings[] = {64};
    static const struct lws_protocols protocols[] = {{.name = "chat", .callback = told}, {0}};
    const struct lws_context_creation_info options = {.port = CONTEXT_PORT_NO_LISTEN, .protocols = protocols};
    chatter both[] = {{.name = "ann", .line = "hi"}, {.name = "bob", .line = "hello", .hears_first = 1}};
    int port = count == 2 ? atoi(words[1]) : 0;
    if (port < 1 || port > 65535)
        return fputs("usage: chat PORT\n", stderr), 1;
    lws_set_log_level(0, NULL);
    struct lws_context *context = lws_create_context(&options);
    struct lws_client_connect_info to = {.context = context, .address = "127.0.0.1", .port = port, .path = "/", .host = "127.0.0.1"};
    for (chatter *c = both; c < both + 2 && !has_failed; c++) {
        to.userdata = c;
        if (!context || !has_room(&c->taken, 1000) || kw_client_open(&c->client, rings, 1) != KW_DONE)
            fail(c, "out of memory");
        else if (!lws_client_connect_via_info(&to))
            fail(c, "no connection can be made");
    }
    while (!has_failed && !(both[0].is_gone && both[1].is_gone))
        lws_service(context, 0);
    lws_context_destroy(context);
    for (chatter *c = both; c < both + 2; c++) {
        kw_client_close(&c->client);
        free(c->came.at);
        free(c->taken.at);
    }
    return has_failed;
}
