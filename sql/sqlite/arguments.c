/* Reads the arguments of the functions and of the table. Each fault names the call, the argument and what stands there. */
#include "varpsilt.h"

#include <string.h>

SQLITE_EXTENSION_INIT3

/* A text so long is read without asking for memory. */
enum { SHORT_TEXT = 200 };

fault no_fault(void)
{
    return (fault){false, NULL};
}

fault fault_of_memory(void)
{
    return (fault){true, NULL};
}

fault fault_of(const char *call, const char *argument, const char *text, const char *why)
{
    return (fault){true, sqlite3_mprintf("%s: %s '%s': %s", call, argument, text == NULL ? "" : text, why)};
}

/* Tells why a text is refused, by the bytes of the library's message. */
static fault refusal(const char *call, const char *text, char *message, size_t needed)
{
    message[needed] = 0;
    return fault_of(call, "expression", text, message);
}

fault read_text_of(const char *call, sqlite3_value *value, expression *read)
{
    const char *text = (const char *)sqlite3_value_text(value);
    const size_t length = (size_t)sqlite3_value_bytes(value);
    char short_message[EXPRESSION_MESSAGE(SHORT_TEXT) + 1], *message = short_message;
    size_t needed;
    if (text == NULL && length > 0) {
        return fault_of_memory();
    }
    if (length > SHORT_TEXT) {
        message = sqlite3_malloc64(EXPRESSION_MESSAGE(length) + 1);
    }
    if (message == NULL) {
        return fault_of_memory();
    }
    const uint32_t status = read_expression(text == NULL ? "" : text, length, read, message, &needed);
    const fault why = status == CRON_C_OK ? no_fault() : refusal(call, text, message, needed);
    if (message != short_message) {
        sqlite3_free(message);
    }
    return why;
}

fault read_moment_of(const char *call, const char *argument, sqlite3 *database, sqlite3_value *value, moment *read)
{
    if (read_moment(database, value, read)) {
        return no_fault();
    }
    return fault_of(call, argument, (const char *)sqlite3_value_text(value), "this is no instant that SQLite reads");
}

fault take_zone_of(const char *call, shelf *zones, sqlite3_value *value, zone **taken)
{
    const char *text = value == NULL ? "UTC" : (const char *)sqlite3_value_text(value);
    const size_t length = value == NULL ? strlen(text) : (size_t)sqlite3_value_bytes(value);
    uint32_t status;
    *taken = take_zone(zones, text == NULL ? "" : text, length, &status);
    if (*taken != NULL) {
        return no_fault();
    }
    return status == CRON_C_NO_MEMORY ? fault_of_memory() : fault_of(call, "zone", text, cron_c_status_text(status));
}

fault read_rule_of(const char *call, sqlite3_value *value, uint32_t *rule)
{
    if (value == NULL) {
        return no_fault();
    }
    const char *text = (const char *)sqlite3_value_text(value);
    *rule = read_rule(text == NULL ? "" : text, (size_t)sqlite3_value_bytes(value));
    return *rule != CRON_C_NO_ENTRY ? no_fault() : fault_of(call, "rule", text, "a rule is as_shown or once");
}
