/* Sockets of a multicast group of IPv4 on an interface, and files that are read whole. What the system refuses ends the program. */
#ifndef GROUPS_H
#define GROUPS_H

#include <arpa/inet.h>
#include <net/if.h>
#include <stdio.h>
#include <stdlib.h>
#include <string.h>
#include <sys/socket.h>

#ifndef IP_MULTICAST_ALL
#define IP_MULTICAST_ALL 49 /* of Linux: what other sockets joined doesn't come */
#endif

static inline void ended_by(const char *what) {
    perror(what);
    exit(7);
}

static inline struct sockaddr_in place_of(const char *group, const char *port) {
    struct sockaddr_in place;
    memset(&place, 0, sizeof place);
    place.sin_family = AF_INET;
    place.sin_port = htons((uint16_t)atoi(port));
    if (inet_pton(AF_INET, group, &place.sin_addr) != 1) ended_by(group);
    return place;
}

static inline struct ip_mreqn membership(const struct sockaddr_in *place, const char *interface) {
    struct ip_mreqn request;
    memset(&request, 0, sizeof request);
    request.imr_multiaddr = place->sin_addr;
    request.imr_ifindex = (int)if_nametoindex(interface);
    if (!request.imr_ifindex) ended_by(interface);
    return request;
}

/* A socket to which comes what is sent to the group by this interface. */
static inline int joined(const char *group, const char *port, const char *interface) {
    int it = socket(AF_INET, SOCK_DGRAM, 0), yes = 1, no = 0, room = 4 << 20;
    struct sockaddr_in place = place_of(group, port);
    struct ip_mreqn request = membership(&place, interface);
    setsockopt(it, SOL_SOCKET, SO_RCVBUF, &room, sizeof room);
    setsockopt(it, IPPROTO_IP, IP_MULTICAST_ALL, &no, sizeof no);
    if (setsockopt(it, SOL_SOCKET, SO_REUSEADDR, &yes, sizeof yes) || bind(it, (struct sockaddr *)&place, sizeof place)) ended_by("bind");
    if (setsockopt(it, IPPROTO_IP, IP_ADD_MEMBERSHIP, &request, sizeof request)) ended_by("join");
    fprintf(stderr, "joined %s\n", group);
    return it;
}

/* A socket that sends to the group by this interface. */
static inline int aimed(const char *group, const char *port, const char *interface) {
    int it = socket(AF_INET, SOCK_DGRAM, 0);
    struct sockaddr_in place = place_of(group, port);
    struct ip_mreqn request = membership(&place, interface);
    if (setsockopt(it, IPPROTO_IP, IP_MULTICAST_IF, &request, sizeof request)) ended_by(interface);
    if (connect(it, (struct sockaddr *)&place, sizeof place)) ended_by("connect");
    return it;
}

/* The bytes of a file, of which the library takes 4,096 at most, into room for one more. */
static inline size_t read_text(const char *name, unsigned char room[4097]) {
    FILE *file = fopen(name, "rb");
    if (!file) ended_by(name);
    size_t length = fread(room, 1, 4097, file);
    fclose(file);
    return length;
}

#endif
