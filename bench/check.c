/* What `check` writes, through libdbus: each message of standard input is read by dbus_message_demarshal, and its header fields and its
   arguments are written as one line of text. */
#define _GNU_SOURCE
#include "text.h"
#include <dbus/dbus.h>
#include <stdlib.h>
#include <string.h>

static void put_values(DBusMessageIter *values, const char *separator);

static void put_inner(DBusMessageIter *value, const char *opening, const char *closing) {
    DBusMessageIter inner;
    dbus_message_iter_recurse(value, &inner);
    put(opening);
    put_values(&inner, " ");
    put(closing);
}

static void put_variant(DBusMessageIter *value) {
    DBusMessageIter inner;
    dbus_message_iter_recurse(value, &inner);
    char *signature = dbus_message_iter_get_signature(&inner);
    put("<");
    put(signature);
    put(" ");
    dbus_free(signature);
    put_values(&inner, " ");
    put(">");
}

static void put_value(DBusMessageIter *value, int type) {
    union basic basic;
    switch (type) {
    case DBUS_TYPE_ARRAY:
        put_inner(value, "[", "]");
        return;
    case DBUS_TYPE_STRUCT:
        put_inner(value, "(", ")");
        return;
    case DBUS_TYPE_DICT_ENTRY:
        put_inner(value, "{", "}");
        return;
    case DBUS_TYPE_VARIANT:
        put_variant(value);
        return;
    }
    dbus_message_iter_get_basic(value, &basic);
    put_basic(type, &basic);
}

static void put_values(DBusMessageIter *values, const char *separator) {
    int type, first = 1;
    while ((type = dbus_message_iter_get_arg_type(values)) != DBUS_TYPE_INVALID) {
        if (!first)
            put(separator);
        first = 0;
        put_value(values, type);
        dbus_message_iter_next(values);
    }
}

static void put_message(DBusMessage *message, const char *bytes, size_t start) {
    put_front(start, dbus_message_get_type(message), bytes, dbus_message_get_serial(message));
    put_field(" path=", dbus_message_get_path(message));
    put_field(" interface=", dbus_message_get_interface(message));
    put_field(" member=", dbus_message_get_member(message));
    put_field(" error=", dbus_message_get_error_name(message));
    if (dbus_message_get_reply_serial(message))
        printf(" reply=%u", dbus_message_get_reply_serial(message));
    put_field(" destination=", dbus_message_get_destination(message));
    put_field(" sender=", dbus_message_get_sender(message));
    DBusMessageIter body;
    if (dbus_message_iter_init(message, &body)) {
        put_field(" signature=", dbus_message_get_signature(message));
        put(" [");
        put_values(&body, " ");
        put("]");
    }
    put("\n");
}

int main(void) {
    size_t held = 0, room = 1 << 16, at = 0, start = 0;
    char *bytes = malloc(room);
    setvbuf(stdout, NULL, _IOFBF, 1 << 16);
    for (;;) {
        size_t got = fread(bytes + held, 1, room - held, stdin);
        held += got;
        at = 0;
        for (;;) {
            int length = held - at < 16 ? 0 : dbus_message_demarshal_bytes_needed(bytes + at, held - at);
            if (length < 0)
                return 6;
            if (length == 0 || held - at < (size_t)length)
                break;
            DBusError error = DBUS_ERROR_INIT;
            DBusMessage *message = dbus_message_demarshal(bytes + at, length, &error);
            if (!message)
                return 6;
            put_message(message, bytes + at, start);
            dbus_message_unref(message);
            at += length;
            start += length;
        }
        memmove(bytes, bytes + at, held - at);
        held -= at;
        if (got == 0)
            return held == 0 ? 0 : 6;
        if (held == room)
            bytes = realloc(bytes, room *= 2);
    }
}
