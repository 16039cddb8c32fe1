/*
 * The sixteen cases by the C interface, each by a new relay: prints the case and the answer to its last call, as the
 * program in crates/cases does. Bodies are made by the archive's writers, but for those that a writer refuses. Before
 * them it asks what is due and how many more routes fit, and prints nothing of that.
 */
#include "lekchnam.h"
#include <stdio.h>
#include <stdlib.h>
#include <string.h>

enum {
    START = 100,
    EXPIRY = 1000,
    WINDOW = 32768,
    REQUEST = 9,
    REQUESTER = 1,
    ENDPOINT = 2,
    STRANGER = 3,
    CASES = 16
};

/* The circuit's id is drawn from these bytes, the first of which is the highest. */
static const uint8_t RANDOM[8] = { 1, 2, 3, 4, 5, 6, 7, 8 };
static const uint64_t CIRCUIT = UINT64_C(0x0102030405060708);

typedef struct {
    LekchnamRelayPending pending[2];
    LekchnamRelayCircuit circuits[2];
    LekchnamReservationUsage ledger[1];
    LekchnamInflightAction inflight[8];
    uint32_t out[LEKCHNAM_HANDLE_WORDS];
    LekchnamOpaqueRelayRuntime runtime;
    LekchnamPlaces places;
} Relay;

typedef struct {
    uint8_t bytes[LEKCHNAM_MAX_DATA_SIZE + 1];
    size_t length;
} Body;

/* One packet on the circuit, by a peer whose name is one byte. */
typedef struct {
    uint8_t opcode;
    uint8_t source;
    uint64_t now;
    Body body;
} Packet;

/* When the ACCEPT comes, and the packets behind it; the first may be delivered before the second comes. */
typedef struct {
    size_t queue;
    uint64_t accepted_at;
    size_t count;
    Packet packets[2];
    bool delivered;
} Case;

static void must(bool good, const char *what)
{
    if (!good) {
        fprintf(stderr, "not as it should be: %s\n", what);
        exit(EXIT_FAILURE);
    }
}

/* ---- bodies */

static Body bytes_of(const uint8_t *bytes, size_t length)
{
    Body body = { .length = length };
    memcpy(body.bytes, bytes, length);
    return body;
}

static Body open_body(void)
{
    LekchnamOpenBody open = { .reservation_id = { 0, 5 }, .profile = 1, .initial_window = WINDOW };
    memset(open.ticket_id, 1, sizeof open.ticket_id);
    memset(open.endpoint_key, 2, sizeof open.endpoint_key);
    memset(open.requester_nonce, 3, sizeof open.requester_nonce);
    must(hnsr_body_encode_open(open, false).cause.first == LEKCHNAM_INVALID_OPEN_PARAMETERS, "an OPEN by a bad key");
    LekchnamOpenBytes written = hnsr_body_encode_open(open, true);
    must(written.cause.kind == LEKCHNAM_CAUSE_NONE, "an OPEN is written");
    return bytes_of(written.bytes, sizeof written.bytes);
}

static Body accept_body(void)
{
    LekchnamAcceptBody accept = { .accepted_window = WINDOW };
    must(hnsr_body_encode_accept(accept).cause.first == LEKCHNAM_INVALID_ACCEPT_RESPONSE, "an ACCEPT with no nonce");
    memset(accept.endpoint_nonce, 4, sizeof accept.endpoint_nonce);
    LekchnamAcceptBytes written = hnsr_body_encode_accept(accept);
    must(written.cause.kind == LEKCHNAM_CAUSE_NONE, "an ACCEPT is written");
    return bytes_of(written.bytes, sizeof written.bytes);
}

static Body data_body(size_t length)
{
    Body body = { .length = length };
    memset(body.bytes, 'A', length);
    bool data = 1 <= length && length <= LEKCHNAM_MAX_DATA_SIZE;
    LekchnamCause cause = hnsr_body_decode_data(body.bytes, body.length);
    must((cause.kind == LEKCHNAM_CAUSE_NONE) == data, "the size of a DATA");
    return body;
}

/* A writer hands out zeros for a delta that it refuses, and that is the one delta here: 0. */
static Body window_body(uint32_t delta)
{
    LekchnamWindowBytes written = hnsr_body_encode_window((LekchnamWindowBody){ delta });
    must((written.cause.kind == LEKCHNAM_CAUSE_NONE) == (delta != 0), "a delta of 0 alone is refused");
    return bytes_of(written.bytes, sizeof written.bytes);
}

static Body error_body(uint16_t reason)
{
    LekchnamDetailBytes written = hnsr_body_encode_error(reason, (const uint8_t *)"", 0);
    must(written.cause.kind == LEKCHNAM_CAUSE_NONE && written.length == 3, "an ERROR without a detail is written");
    return bytes_of(written.bytes, written.length);
}

/* A CLOSE whose detail is not UTF-8, which no writer makes. */
static Body bad_close_body(void)
{
    const uint8_t close[] = { 0, 0, 2, 0xc0, 0x80 };
    LekchnamDetailBytes written = hnsr_body_encode_close(0, close + 3, 2);
    must(written.cause.first == LEKCHNAM_INVALID_NOT_UTF8 && written.length == 0, "a detail that is not UTF-8");
    return bytes_of(close, sizeof close);
}

/* ---- calls */

/* Keeps what a call hands back, and gives its answer. */
static uint32_t kept(Relay *relay, LekchnamRelayReply reply)
{
    relay->runtime = reply.runtime;
    relay->places = reply.places;
    must((reply.answer == LEKCHNAM_PROTOCOL) == (reply.cause.kind != LEKCHNAM_CAUSE_NONE), "a 1 has a cause");
    return reply.answer;
}

static void begin(Relay *relay, size_t queue)
{
    const uint8_t session[16] = { 1 };
    LekchnamOpaqueRelayConfig config = opaque_relay_default_config();
    config.maximum_pending = 2;
    config.maximum_circuits = 2;
    config.maximum_queue_bytes = queue;
    config.maximum_inflight_actions = 8;
    config.maximum_inflight_actions_per_circuit = 8;
    config.maximum_inflight_actions_per_peer = 8;
    LekchnamRelayReply made = opaque_relay_new(
        relay->pending, 2, relay->circuits, 2, relay->ledger, 1, relay->inflight, 8, session, 1, config, START);
    must(kept(relay, made) == LEKCHNAM_TAKEN, "a new relay");
}

static uint32_t handle(Relay *relay, LekchnamRelayPacket packet, uint8_t source, const Body *body)
{
    const uint8_t endpoint = ENDPOINT;
    return kept(relay, opaque_relay_handle(
        relay->pending, 2, relay->circuits, 2, relay->ledger, 1, relay->inflight, 8, relay->out, LEKCHNAM_HANDLE_WORDS,
        relay->runtime, relay->places, packet, &source, 1, body->bytes, body->length, &endpoint, 1,
        RANDOM, sizeof RANDOM));
}

static void open_circuit(Relay *relay)
{
    LekchnamRelayPacket packet = {
        .opcode = LEKCHNAM_OPCODE_OPEN,
        .context_id = REQUEST,
        .now = START,
        .key_valid = true,
        .admitted = true,
        .ticket = { .reservation_id = { 0, 5 }, .expires_at = EXPIRY, .max_active_circuits = 1,
            .max_bytes_per_circuit = 20000, .max_total_bytes = 30000 },
    };
    Body body = open_body();
    must(handle(relay, packet, REQUESTER, &body) == LEKCHNAM_TAKEN, "an OPEN");
    must(lekchnam_context(relay->out) == CIRCUIT, "the context of an INCOMING is the circuit's id");
}

static uint32_t say(Relay *relay, const Packet *said)
{
    LekchnamRelayPacket packet = { .opcode = said->opcode, .context_id = CIRCUIT, .now = said->now, .key_valid = true };
    return handle(relay, packet, said->source, &said->body);
}

/* A number of two output words, the high one first. */
static uint64_t number_at(const uint32_t *words)
{
    return (uint64_t)words[0] << 32 | words[1];
}

/* Acknowledges the route in front of the output words: behind its first word stand its generation and its sequence. */
static void delivered(Relay *relay)
{
    uint64_t generation = number_at(relay->out + 1), sequence = number_at(relay->out + 3);
    uint32_t answer = kept(relay, opaque_relay_acknowledge(
        relay->pending, 2, relay->circuits, 2, relay->inflight, 8, relay->out, LEKCHNAM_HANDLE_WORDS,
        relay->runtime, relay->places, generation, sequence, true));
    must(answer == LEKCHNAM_TAKEN, "an acknowledgement");
}

static LekchnamDueReply next_due(const Relay *relay, size_t ledger_places)
{
    return opaque_relay_next_due(relay->pending, 2, relay->circuits, 2, relay->ledger, ledger_places,
        relay->inflight, 8, relay->runtime, relay->places);
}

static bool due_at(const Relay *relay, uint64_t time)
{
    LekchnamDueReply told = next_due(relay, 1);
    return told.answer == LEKCHNAM_TAKEN && told.some && told.due == time;
}

static bool nothing_due(const Relay *relay, size_t ledger_places)
{
    LekchnamDueReply told = next_due(relay, ledger_places);
    return told.answer == LEKCHNAM_TAKEN && !told.some;
}

static void expire(Relay *relay, uint64_t time)
{
    uint32_t answer = kept(relay, opaque_relay_expire(
        relay->pending, 2, relay->circuits, 2, relay->ledger, 1, relay->inflight, 8, relay->out, LEKCHNAM_HANDLE_WORDS,
        relay->runtime, relay->places, time));
    must(answer == LEKCHNAM_TAKEN, "the clock moves on");
}

/* An OPEN that nobody accepts: its deadline is due, and then its reservation alone. */
static void dues(void)
{
    static Relay relay;
    begin(&relay, LEKCHNAM_MAX_CIRCUIT_QUEUE);
    must(nothing_due(&relay, 1), "nothing is due in a new relay");
    open_circuit(&relay);
    must(due_at(&relay, START + LEKCHNAM_MAX_OPEN_DEADLINE_SECONDS), "an OPEN is due at its deadline");
    expire(&relay, START + LEKCHNAM_MAX_OPEN_DEADLINE_SECONDS);
    must(due_at(&relay, EXPIRY), "a reservation is due without a circuit");
    must(nothing_due(&relay, 0), "no ledger is lent, and that is no refusal");
    expire(&relay, EXPIRY - 1);
    must(due_at(&relay, EXPIRY), "before its end a reservation stays");
    expire(&relay, EXPIRY);
    must(nothing_due(&relay, 1), "at its end it goes");
}

static LekchnamStatusReply status(const Relay *relay, size_t places, const uint8_t *peer, size_t length, uint64_t id)
{
    return opaque_relay_status(relay->pending, 2, relay->circuits, 2, relay->inflight, places, relay->runtime,
        relay->places, peer, length, id);
}

static bool room_for(const Relay *relay, uint8_t peer, uint64_t circuit, size_t routes)
{
    LekchnamStatusReply told = status(relay, 8, &peer, 1, circuit);
    return told.answer == LEKCHNAM_TAKEN && told.status.enabled && told.action_capacity == routes;
}

/* Whether a status is refused so, and tells zeros. */
static bool refused(LekchnamStatusReply told, uint32_t answer)
{
    LekchnamHnsrRuntimeStatus status = told.status;
    return told.answer == answer && told.action_capacity == 0 && !status.enabled
        && (status.generation | status.pending_circuits | status.active_circuits | status.queued_bytes
            | status.queued_actions | status.trusted_time_high_water | status.admitted_opens | status.opened_circuits
            | status.bytes_sent | status.bytes_received | status.revoked_work) == 0;
}

/* An INCOMING is under way to the endpoint. The relay's limit is 8, and here the circuit's 3 and the peer's 4. */
static void rooms(void)
{
    static Relay relay;
    static const uint8_t name[LEKCHNAM_MAXIMUM_PEER + 1];
    begin(&relay, LEKCHNAM_MAX_CIRCUIT_QUEUE);
    must(room_for(&relay, ENDPOINT, CIRCUIT, 8), "a new relay has room for all");
    open_circuit(&relay);
    must(room_for(&relay, STRANGER, 0, 7), "a route counts for everybody");
    relay.runtime.config.maximum_inflight_actions_per_peer = 4;
    must(room_for(&relay, ENDPOINT, 0, 3), "a route counts for its peer");
    must(room_for(&relay, STRANGER, CIRCUIT, 4), "and for no other peer");
    relay.runtime.config.maximum_inflight_actions_per_circuit = 3;
    must(room_for(&relay, STRANGER, CIRCUIT, 2), "a route counts for its circuit");
    must(room_for(&relay, STRANGER, CIRCUIT + 1, 3), "and for no other circuit");
    must(status(&relay, 8, name, LEKCHNAM_MAXIMUM_PEER, 0).answer == LEKCHNAM_TAKEN, "the longest name is taken");
    must(refused(status(&relay, 8, name, 0, CIRCUIT), LEKCHNAM_INVALID_PEER), "a name of no bytes is refused");
    must(refused(status(&relay, 8, name, sizeof name, CIRCUIT), LEKCHNAM_INVALID_PEER), "a name of 129 bytes too");
    must(refused(status(&relay, 7, name, 0, CIRCUIT), LEKCHNAM_SHORT), "a short table is refused before the name");
}

/* ---- cases */

static Case packets(size_t count, Packet first, Packet second)
{
    return (Case){ .queue = LEKCHNAM_MAX_CIRCUIT_QUEUE, .accepted_at = START, .count = count,
        .packets = { first, second } };
}

static Packet by(uint8_t source, uint8_t opcode, Body body)
{
    return (Packet){ .opcode = opcode, .source = source, .now = START, .body = body };
}

static Case one(Packet packet)
{
    return packets(1, packet, packet);
}

static Case data(size_t length)
{
    return one(by(REQUESTER, LEKCHNAM_OPCODE_DATA, data_body(length)));
}

/* The longest DATA, and another behind it. */
static Case two(size_t queue, bool delivered, size_t second)
{
    Case both = packets(2, by(REQUESTER, LEKCHNAM_OPCODE_DATA, data_body(LEKCHNAM_MAX_DATA_SIZE)),
        by(REQUESTER, LEKCHNAM_OPCODE_DATA, data_body(second)));
    both.queue = queue;
    both.delivered = delivered;
    return both;
}

static Case window(uint32_t delta)
{
    return one(by(ENDPOINT, LEKCHNAM_OPCODE_WINDOW, window_body(delta)));
}

static Case early_data(void)
{
    Packet packet = by(REQUESTER, LEKCHNAM_OPCODE_DATA, data_body(1));
    packet.now = START - 1;
    return one(packet);
}

static Case accepted_at(uint64_t time)
{
    Case none = data(1);
    none.count = 0;
    none.accepted_at = time;
    return none;
}

static Case case_of(int number)
{
    switch (number) {
    case 1: return data(0);
    case 2: return data(16384);
    case 3: return data(16385);
    case 4: return two(LEKCHNAM_MAX_CIRCUIT_QUEUE, false, 3617);
    case 5: return two(LEKCHNAM_MAX_CIRCUIT_QUEUE, false, 3616);
    case 6: return window(1015808);
    case 7: return window(1015809);
    case 8: return window(0);
    case 9: return early_data();
    case 10: return accepted_at(110);
    case 11: return accepted_at(109);
    case 12: return one(by(REQUESTER, LEKCHNAM_OPCODE_ERROR, error_body(65535)));
    case 13: return one(by(REQUESTER, LEKCHNAM_OPCODE_CLOSE, bad_close_body()));
    case 14: return one(by(STRANGER, LEKCHNAM_OPCODE_DATA, data_body(1)));
    case 15: return two(16384, false, 1);
    default: return two(16384, true, 1);
    }
}

/* The answer to the last call of a case. */
static uint32_t run(const Case *script)
{
    static Relay relay;
    Packet accept = by(ENDPOINT, LEKCHNAM_OPCODE_ACCEPT, accept_body());
    accept.now = script->accepted_at;
    begin(&relay, script->queue);
    open_circuit(&relay);
    uint32_t answer = say(&relay, &accept);
    for (size_t place = 0; place < script->count; place++) {
        answer = say(&relay, &script->packets[place]);
        if (script->delivered && place + 1 < script->count) {
            delivered(&relay);
        }
    }
    return answer;
}

int main(void)
{
    must(lekchnam_version() == LEKCHNAM_VERSION, "the header is of the archive's version");
    must(lekchnam_layout().reason_detail.detail_length == (UINT64_C(1) << 63 | 120), "the last field of the sample");
    must(lekchnam_layout().status_reply.action_capacity == (UINT64_C(1) << 63 | 121), "its newest field");
    dues();
    rooms();
    puts("case answer");
    for (int number = 1; number <= CASES; number++) {
        Case script = case_of(number);
        printf("%d %u\n", number, (unsigned)run(&script));
    }
    return EXIT_SUCCESS;
}
