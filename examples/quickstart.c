/*
 * Seals a datagram as a client and opens it as a server.
 *
 *     make quickstart
 */
#include <inttypes.h>
#include <stdio.h>
#include <time.h>

#include "relay.h"

int main(void)
{
    /* A real key is random and shared beforehand, and a session ID is random too. */
    const uint8_t key[16] = "sixteen bytes ..";
    const uint8_t target[] = {1, 192, 0, 2, 1, 0, 53}; /* IPv4 192.0.2.1, port 53 */
    const uint8_t payload[] = "hello";
    const uint64_t now = (uint64_t)time(NULL);

    /* What is kept between calls is words in our own memory. */
    uint64_t session[RELAY_SESSION_WORDS], table[RELAY_TABLE_WORDS], answer[RELAY_ANSWER_WORDS];
    relay_session_begin_client(0x1f2e3d4c5b6a7988, session, RELAY_SESSION_WORDS);
    relay_table_new(60, table, RELAY_TABLE_WORDS);

    /* The client seals. This method has no nonce from us. */
    uint8_t datagram[1500], out[1500];
    uint64_t refused = relay_datagram_seal(RELAY_AES_128_GCM, key, sizeof key, NULL, 0, session, RELAY_SESSION_WORDS, now,
                                           target, sizeof target, 0, payload, sizeof payload - 1, datagram,
                                           sizeof datagram, answer, RELAY_ANSWER_WORDS);
    if (refused) {
        printf("not sealed: %s (%" PRIu64 ")\n", relay_refusal_name(refused), refused);
        return 1;
    }
    size_t length = (size_t)answer[RELAY_AT_SEALED_LENGTH];
    printf("sealed %zu bytes\n", length);

    /* The server opens it, and refuses the same datagram the second time. */
    for (int i = 0; i < 2; i++) {
        refused = relay_datagram_open_server(RELAY_AES_128_GCM, key, sizeof key, now, 0, 0, 4000, datagram, length, table,
                                             RELAY_TABLE_WORDS, out, sizeof out, answer, RELAY_ANSWER_WORDS);
        if (refused)
            printf("refused: %s (%" PRIu64 ")\n", relay_refusal_name(refused), refused);
        else
            printf("opened: packet %" PRIu64 ", payload \"%.*s\"\n", answer[RELAY_AT_PACKET_ID],
                   (int)(length - 32 - answer[RELAY_AT_PAYLOAD]), (const char *)out + answer[RELAY_AT_PAYLOAD]);
    }
    return refused == RELAY_REFUSED_REPLAY ? 0 : 1;
}
