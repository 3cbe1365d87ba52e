/* What `check` writes, through sd-bus (libsystemd): each message of standard input, which is a file, is taken from a bus object by sd_bus_process, and
   its header fields and its arguments are written as one line of text.
   sd-bus has no call that reads a message from bytes: it reads them from a descriptor, behind the answer to its own lines of authentication. That answer
   comes from a pipe; once it is read, the file takes the pipe's place. So nobody feeds the bus object, and all the time there is is that of this program. */
#define _GNU_SOURCE
#include "text.h"
#include <endian.h>
#include <errno.h>
#include <fcntl.h>
#include <stdlib.h>
#include <string.h>
#include <sys/mman.h>
#include <sys/stat.h>
#include <systemd/sd-bus.h>
#include <unistd.h>

/* Where the message that is read starts in the stream. */
static size_t start;

/* A result of sd-bus, where it is no error; else the program ends as check.c does. */
static int done(int result, const char *what) {
    if (result >= 0)
        return result;
    fprintf(stderr, "%s, message at byte %zu: %s\n", what, start, strerror(-result));
    exit(6);
}

static void put_values(sd_bus_message *message);

/* The elements of an array without parts of their own. As for put_parts, their type is the array's, and sd-bus is not asked for it at each. */
static void put_row(sd_bus_message *message, char type) {
    union basic basic;
    for (int first = 1; done(sd_bus_message_read_basic(message, type, &basic), "element"); first = 0) {
        if (!first)
            put(" ");
        put_basic(type, &basic);
    }
}

/* The elements of an array of structs or of entries. */
static void put_parts(sd_bus_message *message, const char *element) {
    int entries = element[0] == SD_BUS_TYPE_DICT_ENTRY_BEGIN;
    char type = entries ? SD_BUS_TYPE_DICT_ENTRY : SD_BUS_TYPE_STRUCT, inner[256];
    strcpy(inner, element + 1);
    inner[strlen(inner) - 1] = 0;
    for (int first = 1; done(sd_bus_message_enter_container(message, type, inner), "element"); first = 0) {
        if (!first)
            put(" ");
        put(entries ? "{" : "(");
        put_values(message);
        put(entries ? "}" : ")");
        done(sd_bus_message_exit_container(message), "end of element");
    }
}

static void put_array(sd_bus_message *message, const char *element) {
    done(sd_bus_message_enter_container(message, SD_BUS_TYPE_ARRAY, element), "array");
    put("[");
    switch (element[0]) {
    case SD_BUS_TYPE_ARRAY:
    case SD_BUS_TYPE_VARIANT:
        put_values(message);
        break;
    case SD_BUS_TYPE_STRUCT_BEGIN:
    case SD_BUS_TYPE_DICT_ENTRY_BEGIN:
        put_parts(message, element);
        break;
    default:
        put_row(message, element[0]);
    }
    put("]");
    done(sd_bus_message_exit_container(message), "end of array");
}

static void put_inner(sd_bus_message *message, char type, const char *contents, const char *opening, const char *closing) {
    done(sd_bus_message_enter_container(message, type, contents), "container");
    put(opening);
    put_values(message);
    put(closing);
    done(sd_bus_message_exit_container(message), "end of container");
}

static void put_value(sd_bus_message *message, char type, const char *contents) {
    union basic basic;
    switch (type) {
    case SD_BUS_TYPE_ARRAY:
        put_array(message, contents);
        return;
    case SD_BUS_TYPE_STRUCT:
        put_inner(message, type, contents, "(", ")");
        return;
    case SD_BUS_TYPE_VARIANT:
        put("<");
        put(contents);
        put_inner(message, type, contents, " ", ">");
        return;
    }
    done(sd_bus_message_read_basic(message, type, &basic), "value");
    put_basic(type, &basic);
}

/* The values that are left in the innermost container that was entered. */
static void put_values(sd_bus_message *message) {
    char type;
    const char *contents;
    for (int first = 1; done(sd_bus_message_peek_type(message, &type, &contents), "type"); first = 0) {
        if (!first)
            put(" ");
        put_value(message, type, contents);
    }
}

/* A line. The order and the flags are of the message's bytes: sd-bus tells the flags of calls alone. */
static void put_message(sd_bus_message *message, const char *bytes, uint32_t serial) {
    uint8_t type;
    done(sd_bus_message_get_type(message, &type), "type of message");
    put_front(start, type, bytes, serial);
    put_field(" path=", sd_bus_message_get_path(message));
    put_field(" interface=", sd_bus_message_get_interface(message));
    put_field(" member=", sd_bus_message_get_member(message));
    const sd_bus_error *error = sd_bus_message_get_error(message);
    put_field(" error=", error ? error->name : NULL);
    uint64_t reply;
    if (sd_bus_message_get_reply_cookie(message, &reply) >= 0)
        printf(" reply=%u", (uint32_t)reply);
    put_field(" destination=", sd_bus_message_get_destination(message));
    put_field(" sender=", sd_bus_message_get_sender(message));
    const char *signature = sd_bus_message_get_signature(message, 1);
    if (signature && *signature) {
        put_field(" signature=", signature);
        put(" [");
        put_values(message);
        put("]");
    }
    put("\n");
}

/* A bus object that is past authentication and reads what standard input holds. */
static sd_bus *opened(void) {
    static const char answer[] = "OK 0123456789abcdef0123456789abcdef\r\n";
    sd_bus *bus;
    int ends[2], sink = open("/dev/null", O_WRONLY | O_CLOEXEC);
    if (sink < 0 || pipe(ends) < 0 || write(ends[1], answer, strlen(answer)) < 0 || close(ends[1]) < 0)
        exit(6);
    done(sd_bus_new(&bus), "new");
    done(sd_bus_set_fd(bus, ends[0], sink), "descriptors");
    /* An anonymous client without descriptors waits for no other answer than OK. */
    done(sd_bus_set_anonymous(bus, 1), "anonymous");
    done(sd_bus_negotiate_fds(bus, 0), "no descriptors");
    /* A monitor answers no calls itself, so sd_bus_process hands out every message. */
    done(sd_bus_set_monitor(bus, 1), "monitor");
    done(sd_bus_start(bus), "start");
    while (!done(sd_bus_is_ready(bus), "ready"))
        done(sd_bus_process(bus, NULL), "authentication");
    if (dup2(STDIN_FILENO, ends[0]) < 0)
        exit(6);
    return bus;
}

/* The number at an offset of a message's header. */
static uint32_t number_at(const char *bytes, size_t offset) {
    uint32_t number;
    memcpy(&number, bytes + offset, sizeof number);
    return bytes[0] == 'B' ? be32toh(number) : le32toh(number);
}

/* The length of a message: its header's fixed part, its fields, padded, and its body. */
static size_t length_of(const char *bytes) {
    return 16 + (((size_t)number_at(bytes, 12) + 7) & ~(size_t)7) + number_at(bytes, 4);
}

int main(void) {
    struct stat held;
    if (fstat(STDIN_FILENO, &held) < 0 || !S_ISREG(held.st_mode))
        return 6;
    size_t size = held.st_size;
    const char *bytes = mmap(NULL, size, PROT_READ, MAP_PRIVATE, STDIN_FILENO, 0);
    if (bytes == MAP_FAILED)
        return size == 0 ? 0 : 6;
    setvbuf(stdout, NULL, _IOFBF, 1 << 16);
    sd_bus *bus = opened();
    while (start + 16 <= size) {
        sd_bus_message *message = NULL;
        uint64_t serial;
        while (!message)
            done(sd_bus_process(bus, &message), "message");
        /* A message that sd-bus does not take is left out, and the next one comes in its place (at the end, its own of a lost connection). */
        done(sd_bus_message_get_cookie(message, &serial), "serial");
        done(serial == number_at(bytes + start, 8) ? 0 : -EBADMSG, "refused");
        put_message(message, bytes + start, serial);
        sd_bus_message_unref(message);
        start += length_of(bytes + start);
    }
    return fflush(stdout) == 0 && start == size ? 0 : 6;
}
