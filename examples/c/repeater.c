/* The repeater of a host: the clients of this host register at its port, and hear all beacons that come to it.
 *
 *     cc repeater.c $(pkg-config --cflags --libs cuvezhin) -o repeater && ./repeater 5065
 *
 * With port 0 the system chooses one, which is printed. It goes on until it is ended. */
#define _POSIX_C_SOURCE 200809L
#include <cuvezhin.h>

#include <arpa/inet.h>
#include <netinet/in.h>
#include <stdio.h>
#include <stdlib.h>
#include <sys/socket.h>
#include <unistd.h>

/* Sends a datagram. False if nobody has that port any more: the system does not tell, so this tries to have it. */
static bool sent(int from, cvz_address to, const uint8_t *bytes, size_t size)
{
    struct sockaddr_in address = {.sin_family = AF_INET, .sin_port = htons(to.port), .sin_addr.s_addr = htonl(to.host)};
    int tried = socket(AF_INET, SOCK_DGRAM, 0);
    bool is_gone = tried >= 0 && bind(tried, (struct sockaddr *)&address, sizeof address) == 0;
    close(tried);
    return !is_gone && sendto(from, bytes, size, 0, (struct sockaddr *)&address, sizeof address) >= 0;
}

int main(int argc, char **argv)
{
    static uint8_t bytes[65536];
    cvz_repeater repeater = {0};
    struct sockaddr_in address = {.sin_family = AF_INET, .sin_port = htons((uint16_t)(argc > 1 ? atoi(argv[1]) : 5065))};
    socklen_t address_size = sizeof address;
    int made = socket(AF_INET, SOCK_DGRAM, 0);

    if (made < 0 || bind(made, (struct sockaddr *)&address, sizeof address) < 0 || getsockname(made, (struct sockaddr *)&address, &address_size) < 0) {
        perror("repeater");
        return 1;
    }
    if (cvz_repeater_new(&repeater) < 0) {
        fprintf(stderr, "repeater: out of memory\n");
        return 1;
    }
    printf("repeating %d\n", ntohs(address.sin_port));
    fflush(stdout);
    for (;;) {
        struct sockaddr_in peer;
        socklen_t peer_size = sizeof peer;
        cvz_address to;
        ssize_t size = recvfrom(made, bytes, sizeof bytes, 0, (struct sockaddr *)&peer, &peer_size);
        if (size < 0 || cvz_repeater_datagram(&repeater, &(cvz_address){ntohl(peer.sin_addr.s_addr), ntohs(peer.sin_port)}, bytes, (size_t)size) < 0)
            continue;
        while ((size = (ssize_t)cvz_repeater_outgoing(&repeater, &to, bytes, sizeof bytes)) > 0)
            if (!sent(made, to, bytes, (size_t)size))
                cvz_repeater_refused(&repeater, &to);
    }
}
