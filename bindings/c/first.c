#include <kaltewi.h>
#include <stdio.h>
#include <string.h>

#define TEXT(text) (const uint8_t *)(text), strlen(text)

static const char *const from_server[] = {
    "{\"k\":\"data\",\"path\":\"/chat\",\"tag\":1,\"value\":{\"m1\":\"hi\"}}",
    "{\"k\":\"data\",\"path\":\"/chat/m2\",\"tag\":1,\"value\":5}",
    "{\"k\":\"ok\",\"id\":1}",
};

int main(void) {
    static const size_t rings[] = {64}; /* one seat, whose ring holds 64 items */
    static uint8_t text[4096];
    kw_client client = {0};
    uint64_t listener, request;
    size_t len;
    kw_client_open(&client, rings, 1);
    kw_client_connected(&client);
    kw_client_listen(&client, 1, TEXT("/chat"), TEXT(""), &listener);
    kw_client_set(&client, 1, TEXT("/chat/m2"), TEXT("5"), &request);
    while (kw_client_take_outgoing(&client, text, sizeof text, &len) == KW_DONE)
        printf("to the server: %.*s\n", (int)len, (char *)text);
    for (size_t i = 0; i < 3; i++)
        kw_client_server_message(&client, TEXT(from_server[i]));
    do
        kw_client_settle(&client, 1);
    while (kw_client_next(&client, 1, text, sizeof text, &len) == KW_DONE && printf("%.*s\n", (int)len, (char *)text));
    kw_client_close(&client);
    return 0;
}
