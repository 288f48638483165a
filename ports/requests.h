/* Requests through every export, as lines of text (requests.c), and what the program of a machine gives for it. */
#ifndef REQUESTS_H
#define REQUESTS_H
#include <stdint.h>

/* Given by the machine: the host's and the phone's, or the watch's board. */
void put_text(const char *text);

void seed(uint64_t s);
void random_request(int64_t n[12]);
void near_eclipse(int64_t n[12]);
void run_random(uint32_t count, uint64_t s);
void run_strips(void);
void run_vectors(const char *const *lines);

/* The vectors' left halves (ports/vectors makes them from tests/vectors); a null pointer ends the list. */
extern const char *const vectors[];

/* The requests of the seven eclipses of 003's Table 4, likewise (of tests/outside). */
extern const int64_t table_4[7][12];
#endif
