/* Makes each call of a client, and prints how it ends, the number that it gives and its text. Then it does so again once
   for each growth that is asked for, with that growth refused. A call that lacks memory is made again: the client has
   failed, or it ends as if nothing had been. Each text is first asked for with a room that is too small. */
#include "heap.h"
#include "kaltewi.h"

#include <stdio.h>
#include <string.h>

#define TEXT(words) (const uint8_t *)(words), sizeof(words) - 1

/* Where a call's number and its text go. */
typedef struct {
    uint64_t number;
    uint8_t *out;
    size_t room;
    size_t len;
} answer;

static kw_status open_it(kw_client *c, answer *a)
{
    static const size_t rings[] = {8, 2};
    (void)a;
    return kw_client_open(c, rings, 2);
}

static kw_status open_many(kw_client *c, answer *a)
{
    static const size_t rings[65];
    kw_client other = {0};
    (void)c, (void)a;
    kw_status status = kw_client_open(&other, rings, 65);
    return other.is_open ? KW_DONE : status;
}

static kw_status connect_it(kw_client *c, answer *a)
{
    (void)a;
    return kw_client_connected(c);
}

static kw_status disconnect_it(kw_client *c, answer *a)
{
    (void)a;
    return kw_client_disconnected(c);
}

static kw_status listen_all(kw_client *c, answer *a)
{
    return kw_client_listen(c, 1, TEXT("/chat"), TEXT(""), &a->number);
}

static kw_status listen_some(kw_client *c, answer *a)
{
    return kw_client_listen(c, 2, TEXT("scores"), TEXT("{\"limit\":[\"last\",2],\"order\":\"/score\"}"), &a->number);
}

static kw_status listen_badly(kw_client *c, answer *a)
{
    return kw_client_listen(c, 1, TEXT("/a"), TEXT("{\"limit\":[\"last\",2],\"order\":\"key\"},\"tag\":2"), &a->number);
}

static kw_status listen_refused(kw_client *c, answer *a)
{
    return kw_client_listen(c, 1, TEXT("/a"), TEXT("{\"limit\":[\"last\",0],\"order\":\"key\"}"), &a->number);
}

/* All children in an order that is told alone. */
static kw_status listen_ordered(kw_client *c, answer *a)
{
    return kw_client_listen(c, 2, TEXT("scores"), TEXT("{\"order\":\"/score\"}"), &a->number);
}

/* A bit of no kind is passed over. */
static kw_status want_changed(kw_client *c, answer *a)
{
    (void)a;
    return kw_client_want(c, 1, 1, KW_CHANGED | 32);
}

static kw_status want_elsewhere(kw_client *c, answer *a)
{
    (void)a;
    return kw_client_want(c, 3, 1, KW_VALUE);
}

static kw_status unlisten_it(kw_client *c, answer *a)
{
    (void)a;
    return kw_client_unlisten(c, 2, 2);
}

static kw_status set_it(kw_client *c, answer *a)
{
    return kw_client_set(c, 1, TEXT("/chat/m1"), TEXT("{\"by\":\"ann\",\"text\":\"\\n\"}"), &a->number);
}

static kw_status set_badly(kw_client *c, answer *a)
{
    return kw_client_set(c, 1, TEXT("/chat/\xff"), TEXT("1"), &a->number);
}

static kw_status set_refused(kw_client *c, answer *a)
{
    return kw_client_set(c, 1, TEXT("/chat/m.1"), TEXT("1"), &a->number);
}

static kw_status set_elsewhere(kw_client *c, answer *a)
{
    return kw_client_set(c, 3, TEXT("/a"), TEXT("1"), &a->number);
}

static kw_status update_it(kw_client *c, answer *a)
{
    return kw_client_update(c, 1, TEXT("{\"/chat/m2\":\"hi\",\"/a\":null}"), &a->number);
}

static kw_status update_badly(kw_client *c, answer *a)
{
    return kw_client_update(c, 1, TEXT("{}],[{}"), &a->number);
}

static kw_status remove_it(kw_client *c, answer *a)
{
    return kw_client_remove(c, 2, TEXT("/chat/m1"), &a->number);
}

static kw_status at_end(kw_client *c, answer *a)
{
    return kw_client_on_disconnect(c, 2, TEXT("/here/ann"), TEXT("false"), &a->number);
}

static kw_status update_at_end(kw_client *c, answer *a)
{
    return kw_client_on_disconnect_update(c, 1, TEXT("{\"/here/bob\":false}"), &a->number);
}

static kw_status cancel_end(kw_client *c, answer *a)
{
    return kw_client_cancel_disconnect(c, 1, TEXT("/here"), &a->number);
}

static kw_status tell_data(kw_client *c, answer *a)
{
    (void)a;
    return kw_client_server_message(c, TEXT("{\"k\":\"data\",\"path\":\"/chat\",\"tag\":1,\"value\":{\"m0\":1,"
                                            "\"m1\":{\"by\":\"ann\",\"text\":\"\\n\"}}}"));
}

static kw_status tell_ok(kw_client *c, answer *a)
{
    (void)a;
    return kw_client_server_message(c, TEXT("{\"id\":1,\"k\":\"ok\"}"));
}

static kw_status tell_no(kw_client *c, answer *a)
{
    (void)a;
    return kw_client_server_message(c, TEXT("{\"id\":2,\"k\":\"no\",\"why\":\"denied\"}"));
}

static kw_status tell_revoked(kw_client *c, answer *a)
{
    (void)a;
    return kw_client_server_message(c, TEXT("{\"k\":\"revoke\",\"tag\":1,\"why\":\"denied\"}"));
}

/* What a push says on the first listen is taken in. The second has no data yet, so that its part is passed over. */
static kw_status tell_push(kw_client *c, answer *a)
{
    (void)a;
    return kw_client_server_message(c, TEXT("{\"k\":\"push\",\"parts\":[{\"entries\":{\"/chat/m0\":2},\"tag\":1},"
                                            "{\"entries\":{\"/scores/b/score\":3},\"tag\":2}]}"));
}

static kw_status tell_twice(kw_client *c, answer *a)
{
    (void)a;
    return kw_client_server_message(c, TEXT("{\"k\":\"push\",\"parts\":[{\"entries\":{\"/chat/m0\":3},\"tag\":1},"
                                            "{\"entries\":{\"/chat/m1\":4},\"tag\":1}]}"));
}

static kw_status tell_nothing(kw_client *c, answer *a)
{
    (void)a;
    return kw_client_server_message(c, TEXT("{}"));
}

static kw_status send_next(kw_client *c, answer *a)
{
    return kw_client_take_outgoing(c, a->out, a->room, &a->len);
}

/* Asks for a message with no room, so that it is kept. */
static kw_status keep_next(kw_client *c, answer *a)
{
    kw_status status = kw_client_take_outgoing(c, a->out, 0, &a->len);
    a->len = 0;
    return status == KW_TOO_SMALL ? KW_DONE : status;
}

static kw_status settle_ann(kw_client *c, answer *a)
{
    (void)a;
    return kw_client_settle(c, 1);
}

static kw_status settle_bob(kw_client *c, answer *a)
{
    (void)a;
    return kw_client_settle(c, 2);
}

static kw_status settle_elsewhere(kw_client *c, answer *a)
{
    (void)a;
    return kw_client_settle(c, 0);
}

static kw_status next_ann(kw_client *c, answer *a)
{
    return kw_client_next(c, 1, a->out, a->room, &a->len);
}

static kw_status next_bob(kw_client *c, answer *a)
{
    return kw_client_next(c, 2, a->out, a->room, &a->len);
}

static kw_status next_elsewhere(kw_client *c, answer *a)
{
    return kw_client_next(c, 3, a->out, a->room, &a->len);
}

static kw_status show_cover(kw_client *c, answer *a)
{
    return kw_client_cover(c, a->out, a->room, &a->len);
}

static kw_status make_key(kw_client *c, answer *a)
{
    static const uint8_t random[12] = {1, 2, 3, 4, 5, 6, 7, 8, 9, 10, 11, 12};
    return kw_client_push_key(c, 1700000000000, random, a->out, a->room, &a->len);
}

static kw_status make_no_key(kw_client *c, answer *a)
{
    static const uint8_t random[12] = {64};
    return kw_client_push_key(c, 1700000000000, random, a->out, a->room, &a->len);
}

static kw_status say_why(kw_client *c, answer *a)
{
    uint32_t code = 0;
    kw_status status = kw_client_error(c, &code, a->out, a->room, &a->len);
    a->number = code;
    return status;
}

static const struct {
    const char *name;
    kw_status (*call)(kw_client *, answer *);
} calls[] = {
    {"closed", connect_it},          {"closed", listen_all},     {"closed", settle_ann},      {"closed", next_ann},
    {"closed", send_next},           {"closed", show_cover},     {"closed", make_key},        {"closed", say_why},
    {"closed", want_changed},
    {"open", open_it},               {"65 seats", open_many},    {"no connection", disconnect_it}, {"why", say_why},
    {"connect", connect_it},         {"why", say_why},           {"listen", listen_all},      {"listen", listen_some},
    {"cover", show_cover},           {"bad query", listen_badly}, {"no query", listen_refused}, {"why", say_why},
    {"set", set_it},                 {"bad path", set_badly},    {"no path", set_refused},    {"why", say_why},
    {"no seat", set_elsewhere},      {"update", update_it},      {"bad update", update_badly}, {"end", update_at_end},
    {"cancel", cancel_end},          {"send", send_next},        {"send", send_next},         {"send", send_next},
    {"data", tell_data},             {"ok", tell_ok},            {"no", tell_no},             {"no", tell_no},
    {"no message", tell_nothing},
    {"why", say_why},                {"settle", settle_ann},     {"no seat", settle_elsewhere}, {"no seat", next_elsewhere},
    {"ann", next_ann},               {"ann", next_ann},          {"ann", next_ann},           {"ann", next_ann},
    {"ann", next_ann},               {"ann", next_ann},          {"ann", next_ann},           {"ann", next_ann},
    {"ann", next_ann},               {"settle", settle_ann},     {"ann", next_ann},           {"ann", next_ann},
    {"ann", next_ann},               {"remove", remove_it},      {"full", at_end},            {"bob", next_bob},
    {"end", at_end},                 {"bob", next_bob},          {"bob", next_bob},           {"bob", next_bob},
    {"bob", next_bob},               {"want", want_changed},          {"no seat", want_elsewhere},
    {"push", tell_push},             {"no push", tell_twice},    {"why", say_why},
    {"revoke", tell_revoked},        {"settle", settle_ann},     {"ann", next_ann},           {"ann", next_ann},
    {"ann", next_ann},               {"ann", next_ann},          {"unlisten", unlisten_it},  {"settle", settle_bob},      {"bob", next_bob},
    {"order", listen_ordered},       {"cover", show_cover},      {"bob", next_bob},
    {"key", make_key},               {"key", make_key},          {"no key", make_no_key},     {"why", say_why},
    {"keep", keep_next},             {"disconnect", disconnect_it}, {"send", send_next},       {"cover", show_cover},
    {"why", say_why},
};

static uint8_t whole[1 << 16], printed[1 << 16];

/* Makes a call with a room that is too small, and then with one that fits, and answers how that ends. */
static kw_status made(kw_status (*call)(kw_client *, answer *), kw_client *client, answer *a, uint8_t *room, size_t size)
{
    uint8_t none[1] = {7};
    *a = (answer){0, none, 0, 0};
    kw_status status = call(client, a);
    if (status != KW_TOO_SMALL)
        return none[0] == 7 ? status : KW_CLOSED;
    size_t len = a->len;
    a->out = room;
    a->room = len;
    status = len <= size ? call(client, a) : KW_CLOSED;
    return status == KW_DONE && a->len != len ? KW_CLOSED : status;
}

/* Makes all calls, and says of each how it ends. Answers whether each that lacked memory ended well when it was made again,
   or the client had failed, which ends the run. */
static int run(uint8_t *out, size_t *len)
{
    kw_client client = {0};
    int is_good = 1, has_failed = 0;
    *len = 0;
    for (size_t i = 0; is_good && !has_failed && i < sizeof calls / sizeof *calls; i++) {
        answer a;
        static uint8_t room[4096];
        kw_status status = made(calls[i].call, &client, &a, room, sizeof room);
        if (status == KW_NO_MEMORY) {
            is_good = was_refused && a.len == 0;
            status = made(calls[i].call, &client, &a, room, sizeof room);
            has_failed = status == KW_FAILED;
        }
        if (!has_failed)
            *len += (size_t)snprintf((char *)out + *len, sizeof whole - *len, "%s %u %llu %.*s\n", calls[i].name, status,
                                     (unsigned long long)a.number, (int)(status == KW_DONE ? a.len : 0), (char *)a.out);
    }
    kw_client_close(&client);
    kw_client_close(&client);
    return is_good && !client.is_open;
}

int main(void)
{
    size_t len = 0, got = 0;
    long growths = 0;
    if (!run(whole, &len))
        return 2;
    fwrite(whole, 1, len, stdout);
    do {
        was_refused = 0;
        left = growths;
        int is_good = run(printed, &got);
        left = -1;
        if (!is_good)
            return 3;
        if (got > len || (got != len && !was_refused) || memcmp(printed, whole, got))
            return 4;
        growths += was_refused;
    } while (was_refused);
    return growths ? 0 : 5;
}
