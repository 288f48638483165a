/* The program of a comparison, the same on every machine: COUNT random requests from SEED, strips in every air, then the vectors. */
#include "requests.h"

int main(void) {
    run_random(COUNT, SEED);
    run_strips();
    run_vectors(vectors);
    return 0;
}
