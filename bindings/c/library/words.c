/* What the library says in words that last: a proved export can't return a pointer. */
#include <pg_message.h>

static const char *const refusals[] = {
    "no error",
    [-PGMSG_OUT_OF_MEMORY] = "out of memory",
    [-PGMSG_TOO_MANY_PARAM_FORMATS] = "too many parameter formats",
    [-PGMSG_TOO_MANY_RESULT_FORMATS] = "too many result formats",
    [-PGMSG_TOO_MANY_PARAM_TYPES] = "too many parameter types",
    [-PGMSG_MESSAGE_TOO_LONG] = "message is too long",
    [-PGMSG_WRONG_FORMAT] = "message of another kind",
    [-PGMSG_BODY_TOO_LONG] = "message body is too long",
    [-PGMSG_UNKNOWN_MESSAGE_TYPE] = "unknown message type",
    [-PGMSG_UNKNOWN_AUTHENTICATION] = "unknown authentication method",
    [-PGMSG_UNKNOWN_STATUS] = "unknown transaction status",
    [-PGMSG_UNKNOWN_SEVERITY] = "unknown severity",
    [-PGMSG_SHORT] = "message body is too short",
    [-PGMSG_MISSING_NUL] = "text has no NUL",
    [-PGMSG_NOT_UTF8] = "text is not UTF-8",
    [-PGMSG_NOTICE_NOT_UTF8] = "text of an error or a notice is not UTF-8",
    [-PGMSG_SHORT_SASL_ITEM] = "SASL item of fewer than two bytes",
    [-PGMSG_BASE64] = "SASL value is not base64",
    [-PGMSG_BAD_LENGTH] = "message length is too small",
    [-PGMSG_TEXT_HOLDS_NUL] = "text holds NUL",
    [-PGMSG_BAD_PARAMS] = "values can't be counted",
    [-PGMSG_BAD_KEY_LENGTH] = "secret key is too short or too long",
    [-PGMSG_UNKNOWN_CODE] = "unknown code of a first message",
    [-PGMSG_UNKNOWN_TARGET] = "neither a statement nor a portal",
    [-PGMSG_BAD_VALUE_LENGTH] = "value length is below -1",
    [-PGMSG_TRAILING_BYTES] = "bytes follow the end of a message",
    [-PGMSG_FIRST_TOO_LONG] = "first message is too long",
    [-PGMSG_TOO_MANY] = "more items than can be counted",
    [-PGMSG_NOT_FRAMES] = "not a run of whole messages",
    [-PGMSG_FRAME_TOO_LONG] = "message is longer than is taken whole",
    [-PGMSG_UNKNOWN_LETTER] = "unknown letter of a row or a value",
    [-PGMSG_NOT_READY] = "the login doesn't wait for this message",
    [-PGMSG_AFTER_END] = "the session is over",
    [-PGMSG_IN_COPY] = "the data of a COPY are due",
    [-PGMSG_NOT_IN_COPY] = "no COPY takes data",
    [-PGMSG_NOT_REFUSABLE] = "the data of this COPY can't be refused",
    [-PGMSG_UNASKED] = "no request waits for an answer",
    [-PGMSG_BUSY] = "another request is being answered",
    [-PGMSG_NOT_AN_ANSWER] = "the message doesn't answer the request that waits",
    [-PGMSG_BEHIND_COPY] = "requests were said behind a COPY that asks for data",
    [-PGMSG_SYNC_FIRST] = "a Sync is due",
    [-PGMSG_FLOW_FULL] = "too many requests wait",
};

/* A few words for the number below 0 by which a call refused; the words of its fault say more. For 0
 * and above they are "no error", and for a number that no call returns "unknown error". They last as
 * long as the program. */
const char *pgmsg_strerror(int32_t number)
{
    if (number >= 0)
        return refusals[0];
    if (number <= -(int32_t)(sizeof refusals / sizeof *refusals))
        return "unknown error";
    return refusals[-number];
}

/* The version of the library, and after a space `proved build`, or `plain build` for one that rustc made of the same sources.
 * The version is for comparison with `PGMSG_VERSION` of the header. It lasts as long as the program. */
const char *pgmsg_version(void)
{
    return PGMSG_VERSION " proved build";
}
