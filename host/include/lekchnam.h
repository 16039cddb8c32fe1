/*
 * The C interface of liblekchnam.a: a relay of circuits between two peers, and the bodies of its messages.
 *
 * The functions are proved: each is total, touches nothing but what it is lent, and keeps no pointer. None asks
 * anything of the records, words, bytes and numbers that it is handed. What C must see to:
 *
 * - A slice is two parameters, a pointer and a length, which counts elements. The pointer is not NULL and is aligned,
 *   also where the length is 0. What is lent for writing overlaps nothing else that the call is lent.
 * - A `bool` is 0 or 1, also one in a record, and there also in a place that is not used. Zero bytes are an unused
 *   record.
 * - The target is x86-64 Linux, as the archive is. `lekchnam_version()` is LEKCHNAM_VERSION, or the header is not the
 *   archive's.
 *
 * Structs have the archive's names behind `Lekchnam`. An id of eight or sixteen bytes is a number, or two, whose
 * highest byte is the first on the wire. Times are seconds, of a clock that does not go back.
 *
 * C11 or later, or C++. Link with `-llekchnam`.
 */
#ifndef LEKCHNAM_H
#define LEKCHNAM_H

#include <stdbool.h>
#include <stddef.h>
#include <stdint.h>

#ifdef __cplusplus
extern "C" {
#endif

/* Raised with every change of a function or of a struct below. */
#define LEKCHNAM_VERSION 3

/* ---- numbers */

/* The most bytes of a peer's name; the least is 1. */
#define LEKCHNAM_MAXIMUM_PEER 128

/* The most bytes of a packet, of its header, and of the body behind it. */
#define LEKCHNAM_MAX_PACKET_SIZE 65535
#define LEKCHNAM_HNSR_HEADER_SIZE 12
#define LEKCHNAM_MAX_BODY_SIZE (LEKCHNAM_MAX_PACKET_SIZE - LEKCHNAM_HNSR_HEADER_SIZE)

/* The most bytes of a DATA; the least is 1. */
#define LEKCHNAM_MAX_DATA_SIZE 16384

/* The bounds of a window, and the one to offer where nothing else is asked. A WINDOW adds 1 to the most. */
#define LEKCHNAM_MIN_WINDOW 16384
#define LEKCHNAM_DEFAULT_WINDOW 65536
#define LEKCHNAM_MAX_WINDOW 1048576

/* The most bytes of a detail, in a CLOSE or an ERROR. */
#define LEKCHNAM_MAX_DETAIL_SIZE 128

/* The bytes of each body; of a CLOSE or an ERROR the most. */
#define LEKCHNAM_OPEN_SIZE 103
#define LEKCHNAM_INCOMING_SIZE 62
#define LEKCHNAM_ACCEPT_SIZE 20
#define LEKCHNAM_OPENED_SIZE 28
#define LEKCHNAM_WINDOW_SIZE 4
#define LEKCHNAM_DETAIL_SIZE (3 + LEKCHNAM_MAX_DETAIL_SIZE)

/* The ceilings of a configuration, and the least of `maximum_inflight_actions_per_circuit`: the end of a circuit has a
 * route for each side. */
#define LEKCHNAM_MAX_RUNTIME_PENDING 65536
#define LEKCHNAM_MAX_RUNTIME_CIRCUITS 65536
#define LEKCHNAM_MAX_CIRCUITS 32
#define LEKCHNAM_MAX_CIRCUIT_QUEUE 65536
#define LEKCHNAM_MAX_RUNTIME_INFLIGHT_ACTIONS 262144
#define LEKCHNAM_MIN_INFLIGHT_ACTIONS_PER_CIRCUIT 2
#define LEKCHNAM_MAX_OPEN_DEADLINE_SECONDS 10

/* The random bytes of an OPEN that never run out: they are taken eight at a time. */
#define LEKCHNAM_RANDOM_BYTES 512

/*
 * Output words. A route is, in words of 32 bits: 1 in the top four bits with the length of the name in the lowest
 * eight; generation and sequence, two words each, the high one first; the name, padded with zeros; 2 in the top four
 * bits with the opcode (bits 16 to 23) and the length of the body (bits 0 to 15); the context, two words; the
 * body. Bytes stand four to a word, the first lowest: as bytes in memory they are in order. Routes follow each other.
 *
 * The context, too, stands as its eight bytes in order. A `context_id` elsewhere is a number whose highest byte is the
 * first on the wire, so `(uint64_t)out[38] << 32 | out[39]` is not it; `lekchnam_context(out)` is.
 */
#define LEKCHNAM_PEER_WORDS 32
#define LEKCHNAM_ADDRESS_WORDS (1 + 2 + 2 + LEKCHNAM_PEER_WORDS)
#define LEKCHNAM_HEAD_WORDS (LEKCHNAM_ADDRESS_WORDS + 1 + 2)
/* The words that `handle` needs. */
#define LEKCHNAM_HANDLE_WORDS (LEKCHNAM_HEAD_WORDS + LEKCHNAM_MAX_DATA_SIZE / 4)
/* The words that `acknowledge` needs, and any other call for each record of the pending table and of the circuits. */
#define LEKCHNAM_CLOSING_WORDS (2 * (LEKCHNAM_HEAD_WORDS + 8))

/* The context of the route that starts here, as a number. */
static inline uint64_t lekchnam_context(const uint32_t *route)
{
    uint64_t context = 0;
    for (size_t place = 0; place < 8; place++) {
        context = context << 8 | (route[LEKCHNAM_ADDRESS_WORDS + 1 + place / 4] >> 8 * (place % 4) & 0xff);
    }
    return context;
}

/* The opcodes. The relay takes OPEN, ACCEPT, DATA, WINDOW, CLOSE and ERROR, and refuses others with 16. */
enum {
    LEKCHNAM_OPCODE_FIND_NODE = 0,
    LEKCHNAM_OPCODE_NODES = 1,
    LEKCHNAM_OPCODE_PUT_ROUTE = 2,
    LEKCHNAM_OPCODE_PUT_RESULT = 3,
    LEKCHNAM_OPCODE_GET_ROUTE = 4,
    LEKCHNAM_OPCODE_ROUTES = 5,
    LEKCHNAM_OPCODE_SAMPLE_ROUTES = 6,
    LEKCHNAM_OPCODE_RESERVE = 7,
    LEKCHNAM_OPCODE_OFFER = 8,
    LEKCHNAM_OPCODE_CONFIRM = 9,
    LEKCHNAM_OPCODE_CONFIRMED = 10,
    LEKCHNAM_OPCODE_RENEW = 11,
    LEKCHNAM_OPCODE_WITHDRAW = 12,
    LEKCHNAM_OPCODE_OPEN = 13,
    LEKCHNAM_OPCODE_INCOMING = 14,
    LEKCHNAM_OPCODE_ACCEPT = 15,
    LEKCHNAM_OPCODE_OPENED = 16,
    LEKCHNAM_OPCODE_DATA = 17,
    LEKCHNAM_OPCODE_WINDOW = 18,
    LEKCHNAM_OPCODE_CLOSE = 19,
    LEKCHNAM_OPCODE_ERROR = 20
};

/* The reasons of a CLOSE or an ERROR that have a name. It may have any other number too. */
enum {
    LEKCHNAM_REASON_NORMAL = 0,
    LEKCHNAM_REASON_REFUSED = 1,
    LEKCHNAM_REASON_UNSUPPORTED = 2,
    LEKCHNAM_REASON_BUSY = 3,
    LEKCHNAM_REASON_INVALID = 4,
    LEKCHNAM_REASON_NOT_FOUND = 5,
    LEKCHNAM_REASON_EXPIRED = 6, /* the relay's own: a reservation has ended or is revoked */
    LEKCHNAM_REASON_CAPACITY = 7,
    LEKCHNAM_REASON_TIMEOUT = 8, /* the relay's own: no ACCEPT came in time */
    LEKCHNAM_REASON_PROTOCOL = 9,
    LEKCHNAM_REASON_INTERNAL = 10,
    LEKCHNAM_REASON_ENDPOINT_GONE = 11, /* the relay's own: a peer is gone, or a route was not delivered */
    LEKCHNAM_REASON_AUTHENTICATION_FAILED = 12,
    LEKCHNAM_REASON_FLOW_CONTROL = 13,
    LEKCHNAM_REASON_RATE_LIMITED = 14,
    LEKCHNAM_REASON_SHUTDOWN = 15, /* the relay's own: it is switched off */
    LEKCHNAM_REASON_PROFILE_DISABLED = 16,
    LEKCHNAM_REASON_BYTE_LIMIT = 17
};

/* An answer: 0, or why the call is refused. What to do with a refusal: docs/HOSTING.md, "Refusals". */
enum {
    LEKCHNAM_TAKEN = 0,
    LEKCHNAM_PROTOCOL = 1, /* a packet or its body is wrong, or the OPEN is not admitted; `cause` says which */
    LEKCHNAM_INVALID_CONFIG = 2,
    LEKCHNAM_INVALID_SESSION = 3, /* the session or the generation is zero */
    LEKCHNAM_INVALID_PEER = 4, /* a name does not have 1 to 128 bytes */
    LEKCHNAM_STALE_GENERATION = 5,
    LEKCHNAM_GENERATION_EXHAUSTED = 6,
    LEKCHNAM_CLOCK_ROLLBACK = 7,
    LEKCHNAM_RANDOMNESS = 8, /* no id could be drawn */
    LEKCHNAM_DISABLED = 9,
    LEKCHNAM_CAPACITY = 10,
    LEKCHNAM_INVALID_ADMISSION = 11,
    LEKCHNAM_DEADLINE = 12,
    LEKCHNAM_UNKNOWN_REQUEST = 13,
    LEKCHNAM_UNKNOWN_CIRCUIT = 14,
    LEKCHNAM_WRONG_PEER = 15,
    LEKCHNAM_UNEXPECTED_OPCODE = 16,
    LEKCHNAM_FLOW_CONTROL = 17, /* the sender's credit or the queue does not reach */
    LEKCHNAM_BYTE_LIMIT = 18, /* the circuit or the reservation has no such bytes left */
    LEKCHNAM_NO_QUEUED_DATA = 19, /* no call here answers it */
    LEKCHNAM_UNKNOWN_ACTION = 20,
    LEKCHNAM_CORRUPT_SNAPSHOT = 21, /* no call here answers it */
    LEKCHNAM_SHORT = 22, /* the tables or the output words are too few */
    LEKCHNAM_LEDGER_FULL = 23
};

/* The kind of a cause, and what its two values are; a value that a kind does not have is 0. */
enum {
    LEKCHNAM_CAUSE_NONE = 0,
    LEKCHNAM_CAUSE_UNEXPECTED_END = 1, /* where the field starts, how many bytes it lacks */
    LEKCHNAM_CAUSE_TRAILING_BYTES = 2, /* how many are left */
    LEKCHNAM_CAUSE_INVALID = 3, /* which value */
    LEKCHNAM_CAUSE_TOO_LARGE = 4, /* the size, the most it may be */
    LEKCHNAM_CAUSE_ADMISSION = 5
};

/* Which value is wrong. */
enum {
    LEKCHNAM_INVALID_CONTEXT_ZERO = 1,
    LEKCHNAM_INVALID_OPEN_PARAMETERS = 2,
    LEKCHNAM_INVALID_INCOMING_PARAMETERS = 3,
    LEKCHNAM_INVALID_ACCEPT_RESPONSE = 4,
    LEKCHNAM_INVALID_CIRCUIT_ZERO = 5,
    LEKCHNAM_INVALID_DATA_SIZE = 6,
    LEKCHNAM_INVALID_WINDOW_CREDIT = 7,
    LEKCHNAM_INVALID_DIAGNOSTIC_DETAIL = 8,
    LEKCHNAM_INVALID_NOT_UTF8 = 9
};

/* ---- the records of the four tables; in a place that is not used only the mark matters */

typedef struct {
    uint64_t high;
    uint64_t low;
} LekchnamReservationId;

/* A name, with zeros behind it. */
typedef struct {
    size_t len;
    uint8_t bytes[LEKCHNAM_MAXIMUM_PEER];
} LekchnamHnsrPeerId;

/* What the relay reads of the ticket that an OPEN goes by. */
typedef struct {
    LekchnamReservationId reservation_id;
    uint64_t expires_at;
    uint16_t max_active_circuits;
    uint64_t max_bytes_per_circuit;
    uint64_t max_total_bytes;
} LekchnamRelayTicket;

/* An OPEN that waits for its ACCEPT. */
typedef struct {
    bool used;
    uint64_t circuit_id;
    LekchnamHnsrPeerId requester;
    LekchnamHnsrPeerId endpoint;
    uint64_t requester_context;
    LekchnamRelayTicket ticket;
    uint32_t initial_window;
    uint64_t deadline;
} LekchnamRelayPending;

typedef struct {
    bool used;
    uint64_t circuit_id;
    LekchnamHnsrPeerId requester;
    LekchnamHnsrPeerId endpoint;
    LekchnamReservationId reservation_id;
    uint64_t expires_at;
    uint64_t maximum_bytes;
    uint64_t maximum_total_bytes;
    uint32_t requester_credit;
    uint32_t endpoint_credit;
    uint64_t forwarded_bytes;
    size_t queued_to_requester;
    size_t queued_to_endpoint;
} LekchnamRelayCircuit;

/* A row of the ledger: what a reservation has used. */
typedef struct {
    bool used;
    LekchnamReservationId reservation_id;
    uint64_t bytes;
    uint64_t expires_at;
} LekchnamReservationUsage;

/* A route that is not acknowledged. Its kind: 0 Incoming, 1 Opened, 2 Data, 3 Control, any other Close. */
typedef struct {
    bool used;
    uint64_t generation;
    uint64_t sequence;
    uint64_t circuit_id;
    LekchnamHnsrPeerId destination;
    uint8_t kind;
    bool to_endpoint;
    size_t bytes;
} LekchnamInflightAction;

/* ---- what a host keeps beside the tables */

typedef struct {
    size_t maximum_pending;
    size_t maximum_circuits;
    uint16_t maximum_circuits_per_peer;
    size_t maximum_queue_bytes;
    size_t maximum_inflight_actions;
    size_t maximum_inflight_actions_per_circuit;
    size_t maximum_inflight_actions_per_peer;
    uint64_t maximum_bytes_per_circuit;
    uint64_t accept_timeout_seconds;
} LekchnamOpaqueRelayConfig;

typedef struct {
    uint64_t admitted_opens;
    uint64_t opened_circuits;
    uint64_t bytes_sent;
    uint64_t bytes_received;
    uint64_t revoked_work;
} LekchnamRuntimeCounters;

typedef struct {
    uint8_t session[16];
    uint64_t generation;
    bool enabled;
    uint64_t trusted_time_high_water;
    LekchnamOpaqueRelayConfig config;
    uint64_t next_action_sequence;
    LekchnamRuntimeCounters counters;
} LekchnamOpaqueRelayRuntime;

/*
 * How many places of each table are in use, from its front: a place is used where its mark is set and it lies below
 * the number. Stored with the tables. NONE: no place is used. EVERY: the marks alone decide, for tables of unknown
 * origin.
 */
typedef struct {
    size_t pending;
    size_t circuits;
    size_t ledger;
    size_t actions;
} LekchnamPlaces;

#define LEKCHNAM_PLACES_NONE { 0, 0, 0, 0 }
#define LEKCHNAM_PLACES_EVERY { SIZE_MAX, SIZE_MAX, SIZE_MAX, SIZE_MAX }

/* A packet but for its body, the time, and what the host says of an OPEN: of its key, whether and by what it goes. */
typedef struct {
    uint8_t opcode;
    uint64_t context_id;
    uint64_t now;
    bool key_valid;
    bool admitted;
    LekchnamRelayTicket ticket;
} LekchnamRelayPacket;

/* ---- what comes back */

/* Why an answer is 1, or why a body is refused. */
typedef struct {
    uint32_t kind;
    uint64_t first;
    uint64_t second;
} LekchnamCause;

/* The answer, how many output words are written, and what the host keeps, whatever the answer. */
typedef struct {
    uint32_t answer;
    LekchnamCause cause;
    size_t words;
    LekchnamOpaqueRelayRuntime runtime;
    LekchnamPlaces places;
} LekchnamRelayReply;

typedef struct {
    uint64_t generation;
    bool enabled;
    size_t pending_circuits;
    size_t active_circuits;
    size_t queued_bytes;
    size_t queued_actions;
    uint64_t trusted_time_high_water;
    uint64_t admitted_opens;
    uint64_t opened_circuits;
    uint64_t bytes_sent;
    uint64_t bytes_received;
    uint64_t revoked_work;
} LekchnamHnsrRuntimeStatus;

/* `action_capacity` is how many more routes fit, toward the peer and about the circuit that were asked about. */
typedef struct {
    uint32_t answer;
    LekchnamHnsrRuntimeStatus status;
    size_t action_capacity;
} LekchnamStatusReply;

/* Nothing is due where `some` is false. */
typedef struct {
    uint32_t answer;
    bool some;
    uint64_t due;
} LekchnamDueReply;

/* ---- bodies; windows are numbers, ids as above, all else bytes as on the wire */

typedef struct {
    uint8_t ticket_id[32];
    LekchnamReservationId reservation_id;
    uint8_t endpoint_key[33];
    uint16_t profile;
    uint8_t requester_nonce[16];
    uint32_t initial_window;
} LekchnamOpenBody;

typedef struct {
    uint8_t ticket_id[32];
    uint64_t open_request_id;
    uint16_t profile;
    uint8_t requester_nonce[16];
    uint32_t initial_window;
} LekchnamIncomingBody;

typedef struct {
    uint32_t accepted_window;
    uint8_t endpoint_nonce[16];
} LekchnamAcceptBody;

typedef struct {
    uint64_t circuit_id;
    uint32_t accepted_window;
    uint8_t endpoint_nonce[16];
} LekchnamOpenedBody;

typedef struct {
    uint32_t credit_delta;
} LekchnamWindowBody;

/* Of a CLOSE or an ERROR; the detail stands in the input, from its fourth byte on. */
typedef struct {
    uint16_t reason;
    size_t detail_length;
} LekchnamReasonDetail;

/* What a reader hands back: the fields as far as the input reaches, accepted or not. */
typedef struct {
    LekchnamCause cause;
    LekchnamOpenBody body;
} LekchnamOpenAnswer;

typedef struct {
    LekchnamCause cause;
    LekchnamIncomingBody body;
} LekchnamIncomingAnswer;

typedef struct {
    LekchnamCause cause;
    LekchnamAcceptBody body;
} LekchnamAcceptAnswer;

typedef struct {
    LekchnamCause cause;
    LekchnamOpenedBody body;
} LekchnamOpenedAnswer;

typedef struct {
    LekchnamCause cause;
    LekchnamWindowBody body;
} LekchnamWindowAnswer;

typedef struct {
    LekchnamCause cause;
    LekchnamReasonDetail body;
} LekchnamDetailAnswer;

/* What a writer hands back: the bytes, zeros where it refuses. */
typedef struct {
    LekchnamCause cause;
    uint8_t bytes[LEKCHNAM_OPEN_SIZE];
} LekchnamOpenBytes;

typedef struct {
    LekchnamCause cause;
    uint8_t bytes[LEKCHNAM_INCOMING_SIZE];
} LekchnamIncomingBytes;

typedef struct {
    LekchnamCause cause;
    uint8_t bytes[LEKCHNAM_ACCEPT_SIZE];
} LekchnamAcceptBytes;

typedef struct {
    LekchnamCause cause;
    uint8_t bytes[LEKCHNAM_OPENED_SIZE];
} LekchnamOpenedBytes;

typedef struct {
    LekchnamCause cause;
    uint8_t bytes[LEKCHNAM_WINDOW_SIZE];
} LekchnamWindowBytes;

/* The first `length` bytes are the body. */
typedef struct {
    LekchnamCause cause;
    size_t length;
    uint8_t bytes[LEKCHNAM_DETAIL_SIZE];
} LekchnamDetailBytes;

/* ---- what the archive tells of itself */

/* A sample of each struct. Every field has a number of its own, with the highest bit of its width set; of two `bool`s
 * in a record the first is true. So a field that the archive has elsewhere reads as another number. */
typedef struct {
    LekchnamRelayPending pending;
    LekchnamRelayCircuit circuit;
    LekchnamReservationUsage usage;
    LekchnamInflightAction action;
    LekchnamRelayPacket packet;
    LekchnamRelayReply reply;
    LekchnamStatusReply status_reply;
    LekchnamDueReply due_reply;
    LekchnamOpenBody open_body;
    LekchnamIncomingBody incoming_body;
    LekchnamAcceptBody accept_body;
    LekchnamOpenedBody opened_body;
    LekchnamWindowBody window_body;
    LekchnamReasonDetail reason_detail;
} LekchnamLayout;

uint32_t lekchnam_version(void);
LekchnamLayout lekchnam_layout(void);

/* ---- the configuration: the defaults, and the answer to one */

LekchnamOpaqueRelayConfig opaque_relay_default_config(void);
uint32_t opaque_relay_validate_config(LekchnamOpaqueRelayConfig config);

/* ---- the calls of the relay
 *
 * A relay is four tables, a runtime and the places. `new` makes the last two, and touches no table: each has at least
 * as many places as the configuration's limit, the ledger one. Every other call takes runtime and places as the last
 * one handed them back. Routes to send are in the output words; each is acknowledged, delivered or not, by its
 * generation and sequence. A refused call writes no output.
 */

/* `session` is sixteen bytes, not all zero; `generation` is not zero. */
LekchnamRelayReply opaque_relay_new(
    const LekchnamRelayPending *pending, size_t pending_places,
    const LekchnamRelayCircuit *circuits, size_t circuit_places,
    const LekchnamReservationUsage *ledger, size_t ledger_places,
    const LekchnamInflightAction *inflight, size_t inflight_places,
    const uint8_t session[16], uint64_t generation, LekchnamOpaqueRelayConfig config, uint64_t time);

/* Takes a packet of `source`. Of an OPEN that is admitted `endpoint` is the one called; of an OPEN `random` is what its
 * id is drawn from. */
LekchnamRelayReply opaque_relay_handle(
    LekchnamRelayPending *pending, size_t pending_places,
    LekchnamRelayCircuit *circuits, size_t circuit_places,
    LekchnamReservationUsage *ledger, size_t ledger_places,
    LekchnamInflightAction *inflight, size_t inflight_places,
    uint32_t *out, size_t out_words,
    LekchnamOpaqueRelayRuntime runtime, LekchnamPlaces places, LekchnamRelayPacket packet,
    const uint8_t *source, size_t source_length,
    const uint8_t *body, size_t body_length,
    const uint8_t *endpoint, size_t endpoint_length,
    const uint8_t *random, size_t random_length);

/* Takes the word that a route was delivered, or was not. */
LekchnamRelayReply opaque_relay_acknowledge(
    LekchnamRelayPending *pending, size_t pending_places,
    LekchnamRelayCircuit *circuits, size_t circuit_places,
    LekchnamInflightAction *inflight, size_t inflight_places,
    uint32_t *out, size_t out_words,
    LekchnamOpaqueRelayRuntime runtime, LekchnamPlaces places,
    uint64_t generation, uint64_t sequence, bool delivered);

/* Ends all that a peer is a side of. */
LekchnamRelayReply opaque_relay_disconnect(
    LekchnamRelayPending *pending, size_t pending_places,
    LekchnamRelayCircuit *circuits, size_t circuit_places,
    LekchnamInflightAction *inflight, size_t inflight_places,
    uint32_t *out, size_t out_words,
    LekchnamOpaqueRelayRuntime runtime, LekchnamPlaces places,
    const uint8_t *peer, size_t peer_length);

/* Ends all that goes by a reservation. */
LekchnamRelayReply opaque_relay_revoke_reservation(
    LekchnamRelayPending *pending, size_t pending_places,
    LekchnamRelayCircuit *circuits, size_t circuit_places,
    LekchnamReservationUsage *ledger, size_t ledger_places,
    LekchnamInflightAction *inflight, size_t inflight_places,
    uint32_t *out, size_t out_words,
    LekchnamOpaqueRelayRuntime runtime, LekchnamPlaces places, LekchnamReservationId id);

/* Moves the clock, and ends all whose time is over. */
LekchnamRelayReply opaque_relay_expire(
    LekchnamRelayPending *pending, size_t pending_places,
    LekchnamRelayCircuit *circuits, size_t circuit_places,
    LekchnamReservationUsage *ledger, size_t ledger_places,
    LekchnamInflightAction *inflight, size_t inflight_places,
    uint32_t *out, size_t out_words,
    LekchnamOpaqueRelayRuntime runtime, LekchnamPlaces places, uint64_t time);

/* Switches the relay on or off. */
LekchnamRelayReply opaque_relay_replace_enabled(
    LekchnamRelayPending *pending, size_t pending_places,
    LekchnamRelayCircuit *circuits, size_t circuit_places,
    LekchnamInflightAction *inflight, size_t inflight_places,
    uint32_t *out, size_t out_words,
    LekchnamOpaqueRelayRuntime runtime, LekchnamPlaces places, uint64_t expected_generation, bool enabled);

/* Moves the clock. */
LekchnamRelayReply opaque_relay_observe_time(LekchnamOpaqueRelayRuntime runtime, LekchnamPlaces places, uint64_t time);

/* What the relay tells of itself, and how many more routes the three limits on unacknowledged ones leave toward a peer
 * and about a circuit, known to the relay or not: the least of what is left in the relay, about the circuit and toward
 * the peer. At 0, and only then, a DATA or a WINDOW to that peer by that circuit is refused with LEKCHNAM_CAPACITY, if
 * nothing refuses it before. Zeros where it is refused: with LEKCHNAM_SHORT, and then with LEKCHNAM_INVALID_PEER where
 * the name has no bytes or more than LEKCHNAM_MAXIMUM_PEER. The status is the same whoever is asked about. */
LekchnamStatusReply opaque_relay_status(
    const LekchnamRelayPending *pending, size_t pending_places,
    const LekchnamRelayCircuit *circuits, size_t circuit_places,
    const LekchnamInflightAction *inflight, size_t inflight_places,
    LekchnamOpaqueRelayRuntime runtime, LekchnamPlaces places,
    const uint8_t *peer, size_t peer_length, uint64_t circuit_id);

/* When `expire` has work: the first of all deadlines of pending records, ends of circuits and ends of the ledger's
 * records. Sleep until then, and call it. In a relay begun by `new` it would only move the clock before, and after it
 * nothing is due, or something later. The ledger may have no places here. */
LekchnamDueReply opaque_relay_next_due(
    const LekchnamRelayPending *pending, size_t pending_places,
    const LekchnamRelayCircuit *circuits, size_t circuit_places,
    const LekchnamReservationUsage *ledger, size_t ledger_places,
    const LekchnamInflightAction *inflight, size_t inflight_places,
    LekchnamOpaqueRelayRuntime runtime, LekchnamPlaces places);

/* ---- bodies: readers, writers, checks. Kind 0 of the cause is accepted.
 *
 * `key_valid` is the caller's word on the endpoint's key: no curve arithmetic stands behind this. DATA has no writer:
 * its body is the bytes as they are, and its reader is the check of both ways.
 */

LekchnamOpenAnswer hnsr_body_decode_open(const uint8_t *input, size_t length, bool key_valid);
LekchnamIncomingAnswer hnsr_body_decode_incoming(const uint8_t *input, size_t length);
LekchnamAcceptAnswer hnsr_body_decode_accept(const uint8_t *input, size_t length);
LekchnamOpenedAnswer hnsr_body_decode_opened(const uint8_t *input, size_t length);
LekchnamCause hnsr_body_decode_data(const uint8_t *input, size_t length);
LekchnamWindowAnswer hnsr_body_decode_window(const uint8_t *input, size_t length);
LekchnamDetailAnswer hnsr_body_decode_close(const uint8_t *input, size_t length);
LekchnamDetailAnswer hnsr_body_decode_error(const uint8_t *input, size_t length);

LekchnamOpenBytes hnsr_body_encode_open(LekchnamOpenBody body, bool key_valid);
LekchnamIncomingBytes hnsr_body_encode_incoming(LekchnamIncomingBody body);
LekchnamAcceptBytes hnsr_body_encode_accept(LekchnamAcceptBody body);
LekchnamOpenedBytes hnsr_body_encode_opened(LekchnamOpenedBody body);
LekchnamWindowBytes hnsr_body_encode_window(LekchnamWindowBody body);
LekchnamDetailBytes hnsr_body_encode_close(uint16_t reason, const uint8_t *detail, size_t length);
LekchnamDetailBytes hnsr_body_encode_error(uint16_t reason, const uint8_t *detail, size_t length);

/* The size of a packet, then that its context is not zero, which opcode 6 may have. */
LekchnamCause hnsr_body_validate_packet(uint8_t opcode, uint64_t context_id, size_t body_length);

/* Whether a text is UTF-8 by RFC 3629. */
bool hnsr_body_is_utf8(const uint8_t *text, size_t length);

#ifdef __cplusplus
}
#endif

#endif
