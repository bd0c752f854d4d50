/* The example server in C with display data, for tools/peers: a line of its file of records is the name, the greatest count, the type of the image, the number of elements and, in
 * hexadecimal digits, the image, as cvz_server_add takes them. */
#define _POSIX_C_SOURCE 200809L
#include <cuvezhin.h>

#include <ctype.h>

static int32_t load_images(cvz_server *server, uint16_t port, uint64_t now, const uint8_t *text, size_t text_size);

#define cvz_server_load load_images
#include "../examples/c/server.c"

static int32_t load_images(cvz_server *server, uint16_t port, uint64_t now, const uint8_t *text, size_t text_size)
{
    const char *line = (const char *)text, *end = line + text_size;
    int32_t made = cvz_server_new(server, port, now);
    for (int used_up = 0; made == 0 && line < end; line += used_up) {
        char name[61];
        uint8_t image[1024];
        unsigned greatest, type, count, byte;
        size_t size = 0;
        if (sscanf(line, "%60s %u %u %u %n", name, &greatest, &type, &count, &used_up) != 4)
            return CVZ_BAD_TEXT;
        for (; size < sizeof image && isxdigit(line[used_up]) && sscanf(line + used_up, "%2x", &byte) == 1; used_up += 2)
            image[size++] = (uint8_t)byte;
        used_up += 1;                  /* the end of the line */
        made = cvz_server_add(server, (const uint8_t *)name, strlen(name), greatest, false, (uint16_t)type, count, image, size);
    }
    return made;
}
